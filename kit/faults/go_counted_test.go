package main

import (
	"os"
	"path/filepath"
	"testing"
)

// What the adapter was called with.
var called = os.Args

// Each process writes a profile of its own, beside the program.
func TestMain(m *testing.M) {
	profile, err := os.CreateTemp(filepath.Dir(called[0]), "*.profile")
	if err != nil {
		panic(err)
	}
	os.Args = []string{called[0], "-test.coverprofile=" + profile.Name(), "-test.timeout=0"}
	os.Exit(m.Run())
}

// What a test says besides isn't for who asks the adapter.
func TestAdapter(t *testing.T) {
	os.Args = called
	main()
	os.Stdout = os.Stderr
}
