"""Faults that are planted in the toys, and what a shell and `sed` make of right replies."""
from __future__ import annotations

from dataclasses import dataclass

from judging.comparing import Kind


@dataclass(frozen=True)
class Fault:
    """A fault planted in a toy: a text of its source, and what stands there instead."""
    name: str
    old: str
    new: str
    kind: Kind = Kind.DIFFERENCE
    options: tuple[str, ...] = ()
    scripts: tuple[str, ...] = ("plain1.script", "plain2.script")


# Soon a program is taken to hang.
SOON = ("--seconds", "0.6", "--event-seconds", "0")

# Instead of the answer to whether a slot names what it names.
WAITING = """while (n[0] == n[1]) {
            extern int pause(void);
            pause();
        }
        strcpy(reply, roots[n[0]] =="""

C_FAULTS = [
    Fault("shape_has_the_counts_exchanged", "field[0], field[1]);", "field[1], field[0]);"),
    Fault("the_last_field_is_lost_by_a_copy", "size * sizeof *from", "(size - (size > HEADER)) * sizeof *from"),
    Fault("a_slot_gets_a_copy_of_its_own", "    for (uint64_t scan = 1;", """    if (heap->roots[3] != 0) {
        uint64_t *object = heap->space + heap->roots[3], size = HEADER + object[0] + object[1];
        memcpy(heap->space + heap->top, object, size * sizeof *object);
        heap->roots[3] = heap->top;
        heap->top += size;
    }
    for (uint64_t scan = 1;"""),
    Fault("the_board_is_no_root", "root < ROOTS; root++", "root < SESSIONS * SLOTS; root++"),
    Fault("one_slot_is_no_root", "        heap->roots[root] = copied", """        if (root != SLOTS + 1)
            heap->roots[root] = copied"""),
    Fault("the_last_reference_is_not_scanned", "field < HEADER + object[0]", "field + 1 < HEADER + object[0]"),
    Fault("memory_is_not_cleared_whole", "memset(old, 0, old_top * sizeof *old);", """
    for (uint64_t i = 1; i < old_top; i++)
        old[i] &= 1;"""),
    Fault("numbers_have_32_bits", "*field = n[2];", "*field = (uint32_t)n[2];"),
    Fault("the_ninth_session_is_the_eighth", "return SESSIONS;", "return SESSIONS - 1;"),
    Fault("an_ended_session_goes_on", "heap->ended[session] = true;", ""),
    Fault("take_empties_the_board", "roots[n[0]] = roots[n[1]];", """roots[n[0]] = roots[n[1]];
        if (word == TAKE)
            roots[n[1]] = 0;"""),
    Fault("get_of_null_keeps_the_slot", "roots[n[0]] = *field;", "roots[n[0]] = *field != 0 ? *field : roots[n[0]];"),
    Fault("a_refused_new_empties_its_slot", "refusal = make(", "roots[n[0]] = 0;\n        refusal = make("),
    Fault("an_empty_slot_before_a_bad_one", "    enum refusal refusal = find_roots(", """
    if (word == GET && numbers[1] < SLOTS && heap->roots[session * SLOTS + numbers[1]] == 0)
        return NO_OBJECT;
    enum refusal refusal = find_roots("""),
    Fault("objects_of_one_field_more", "> MOST_FIELDS)", "> MOST_FIELDS + 1)", scripts=("large.script",)),
    Fault("same_hangs", "strcpy(reply, roots[n[0]] ==", WAITING, Kind.HANG, SOON),
    Fault("same_hangs_line_by_line", "strcpy(reply, roots[n[0]] ==", WAITING, Kind.HANG,
          (*SOON, "--protocol", "live")),
    Fault("end_aborts", "heap->ended[session] = true;", "abort();", Kind.DEATH),
    Fault("end_exits_line_by_line", "heap->ended[session] = true;", "exit(7);", Kind.DEATH, ("--protocol", "live")),
    Fault("copy_answers_without_end", "    case COPY: case POST: case TAKE:\n", """    case COPY: case POST: case TAKE:
        while (word == COPY)
            puts("ok");
""", Kind.FLOOD),
    Fault("half_a_page_is_all_the_room", "1 + pages * PAGE_WORDS", "1 + PAGE_WORDS / 2", Kind.FULL),
]

PYTHON_FAULTS = [
    Fault("a_root_keeps_its_old_address", "self.roots[:] = [", "self.roots[1:] = [", scripts=("short.script",)),
    Fault("shape_of_null_raises", "= heap.object(source)", "= heap.roots[source] or int('null')", Kind.DEATH,
          scripts=("short.script",)),
]

# What a shell makes of the right replies, and what is then found.
SHELL_FAULTS = {
    "the_last_reply_is_missing": ("{program} run | sed '$d'", Kind.SILENCE),
    "the_last_newline_is_missing": ("{program} run | head -c -1", Kind.SILENCE),
    "nothing_is_answered": ("cat > /dev/null", Kind.SILENCE),
    "lines_end_in_carriage_returns": ("{program} run | sed 's/$/\\r/'", Kind.DIFFERENCE),
    "bytes_are_no_text": ("{program} run | sed 's/yes/\\xff/'", Kind.DIFFERENCE),
    "the_script_comes_back": ("cat", Kind.FLOOD),
    "a_banner_comes_first": ("echo ready; {program} run", Kind.FLOOD),
    "a_line_without_end": ("cat /dev/zero", Kind.FLOOD),
    "the_status_is_3": ("{program} run; exit 3", Kind.DEATH),
    "a_signal_comes": ("{program} run; kill -SEGV $$", Kind.DEATH),
    "nothing_is_read": ("exit 0", Kind.SILENCE),
    "nothing_is_read_and_there_is_no_end": ("exec sleep 100", Kind.HANG),
    "the_output_stays_open": ("{program} run; sleep 100 & exit 0", Kind.HANG),
}

# What `sed` makes of the replies to controls. Sessions see nothing of it.
EXACT_FAULTS = {
    "the_last_quantum_spends_more": r"s/^spent (.*) phase idle$/spent 1\1 phase idle/",
    "cycles_are_counted_by_tens": r"s/^(free .* cycle .*)$/\10/",
    "flags_are_not_dumped": r"s/ \+ / - /g",
    "forwarders_are_not_dumped": r"s/ [0-9]+>[0-9.]+//",
    "nothing_is_left": "s/^left [1-9].*/left 0/",
    "the_greatest_quantum_is_too_great": r"s/ greatest ([1-9])/ greatest 1\1/",
    "roots_are_skipped": "s/ phase roots/ phase mark/",
}
