// Makes trees, each in the place of an older one: trees ROUNDS [TRACE]. The execution trace goes to the file TRACE.
package main

import (
	"fmt"
	"os"
	"runtime/trace"
	"strconv"
)

const (
	depth = 12
	many  = 16
)

type node struct {
	left, right *node
}

func grow(depth int) *node {
	if depth == 0 {
		return &node{}
	}
	return &node{grow(depth - 1), grow(depth - 1)}
}

func (n *node) count() int {
	if n == nil {
		return 0
	}
	return 1 + n.left.count() + n.right.count()
}

func work(rounds int) int {
	var kept [many]*node
	for round := 0; round < rounds; round++ {
		kept[round%many] = grow(depth)
	}
	nodes := 0
	for _, it := range kept {
		nodes += it.count()
	}
	return nodes
}

func check(err error) {
	if err != nil {
		fmt.Fprintln(os.Stderr, err)
		os.Exit(1)
	}
}

func main() {
	rounds, err := strconv.Atoi(os.Args[1])
	check(err)
	if len(os.Args) > 2 {
		file, err := os.Create(os.Args[2])
		check(err)
		defer file.Close()
		check(trace.Start(file))
		defer trace.Stop()
	}
	fmt.Println(work(rounds))
}
