"""The reading of a door's stack off its code, and the text of a crate that exports doors.

Code is given as objdump prints it, as that of binutils and as that of LLVM. That the archive can be made is not tried
here, since that takes a proof: its text is.
"""

import unittest

from tests.checks.test_house import ROOT, MadeUp
from tools import exported, sources, stack

CALLER = """\
0000000000000000 <a::outer>:
       0:      \tcmpq\t%rdx, %rsi
       3:      \tjne\t0x6 <a::outer+0x6>
       5:      \tretq
       6:      \tpushq\t%rbx
       7:      \tsubq\t$48, %rsp
       b:      \tpushq\t%rax
       c:      \tcallq\t0x11 <a::outer+0x11>
\t\t000000000000000d:  R_X86_64_PLT32\t.text.a::inner-0x4
      11:      \taddq\t$56, %rsp
      15:      \tpopq\t%rbx
      16:      \tretq
"""
INNER = """\
0000000000000000 <a::inner>:
   0:\tsub    $0x28,%rsp
   4:\tcall   9 <a::inner+0x9>
\t\t\t5: R_X86_64_PLT32\tmemset-0x4
   9:\tadd    $0x28,%rsp
   d:\tret
"""
OF_INNER = 0x28 + 8
PAGE_BY_PAGE = """\
0000000000000000 <f>:
       0:      \tmovq\t%rsp, %r11
       3:      \tsubq\t$503808, %r11           # imm = 0x7B000
       a:      \tsubq\t$4096, %rsp             # imm = 0x1000
      11:      \tmovq\t$0, (%rsp)
      19:      \tcmpq\t%r11, %rsp
      1c:      \tjne\t0xa <f+0xa>
      1e:      \tsubq\t$296, %rsp              # imm = 0x128
      25:      \tretq
"""


def code(name, *instructions):
    """A function as objdump prints it, as though each instruction had one byte."""
    lines = "".join(f"   {place:x}:\t{one}\n" for place, one in enumerate(instructions))
    return f"0000000000000000 <{name}>:\n{lines}"


def to(operation, other):
    """A call or a jump to another function, as it is told in an archive."""
    return f"{operation} 0 <here>\n\t\t\t1: R_X86_64_PLT32\t{other}-0x4"


def deepest(listing, name, **counts):
    named = {function.replace("__", "::"): count for function, count in counts.items()}
    return stack.deepest(name, stack.functions_of(listing), named)


def calls_of(root, crate):
    """The names of what each function of a crate calls there. Functions of two crates do not call each other, and tests stand last."""
    files = sources.files(root, f"{crate}/src/**/*.rt")
    texts = [sources.text_of(root, file).partition("\n#[cfg(test)]\n")[0] for file in files]
    items = [item for text in texts for item in sources.RattleFile(text).items.values()]
    others = set(sources.crates(root)) - {crate}
    return {
        item.name: {path[-1] for path in item.cited if path[0] not in others} for item in items if item.kind == "fn"
    }


def reached(calls, names):
    """The functions that these call, and those that they call in turn."""
    found, todo = set(), set(names)
    while todo:
        found |= todo
        todo = set().union(*(calls.get(name, ()) for name in todo)) - found
    return found


def calling_themselves(root):
    """The functions that call themselves, on their own or by way of others."""
    for crate in sources.crates(root):
        calls = calls_of(root, crate)
        for name, called in calls.items():
            if name in reached(calls, called):
                yield f"{crate}::{name}"


class Frames(unittest.TestCase):
    def test_a_function_alone(self):
        self.assertEqual(deepest(INNER, "a::inner"), OF_INNER)

    def test_what_is_called_stands_below(self):
        self.assertEqual(deepest(CALLER, "a::outer"), 8 + 48 + 8 + 8)
        self.assertEqual(deepest(CALLER + INNER, "a::outer"), 8 + 48 + 8 + 8 + OF_INNER)

    def test_a_way_that_takes_nothing(self):
        self.assertEqual(deepest(code("f", "ret"), "f"), 0)

    def test_a_last_jump_to_another_function(self):
        jumps = code("f", "push %rbx", "pop %rbx", to("jmp", "a::inner"))
        self.assertEqual(deepest(jumps + INNER, "f"), OF_INNER)

    def test_a_program_has_no_relocations(self):
        calls = code("main", "sub $0x8,%rsp", "call 2000 <a::inner>", "add $0x8,%rsp", "ret")
        self.assertEqual(deepest(calls + INNER, "main"), 8 + 8 + OF_INNER)
        self.assertEqual(deepest(code("main", "jmp 2000 <a::inner>") + INNER, "main"), OF_INNER)

    def test_the_library_is_not_counted(self):
        link = code("memset@plt", "sub $0x100,%rsp", "ret")
        self.assertEqual(deepest(code("main", "jmp 2000 <memset@plt>") + link, "main"), 0)

    def test_a_frame_that_is_taken_page_by_page(self):
        self.assertEqual(deepest(PAGE_BY_PAGE, "f"), 503808 + 296)

    def test_a_jump_by_a_table(self):
        jumps = code("f", "push %rbx", "jmp *%rax", "push %rcx", "pop %rcx", "pop %rbx", "ret")
        self.assertEqual(deepest(jumps, "f"), 16)

    def test_what_fills_the_space_behind_a_jump(self):
        jumps = code("f", "jmp *%rax", "push %rcx", "pop %rcx", "ret", "nopw 0x0(%rax)", "xchg %ax,%ax")
        self.assertEqual(deepest(jumps, "f"), 8)

    def test_what_stands_below_the_stack_pointer(self):
        stores = code("f", "push %rbx", "mov %al,-0x48(%rsp,%rcx,1)", "pop %rbx", "ret")
        self.assertEqual(deepest(stores, "f"), 8 + 0x48)
        self.assertEqual(deepest(code("f", "movups %xmm0, -65(%rsp)", "retq"), "f"), 72)

    def test_a_frame_told_by_a_negative_number(self):
        self.assertEqual(deepest(code("f", "add $0xffffffffffffff80,%rsp", "ret"), "f"), 128)
        self.assertEqual(deepest(code("f", "addq $-128, %rsp", "retq"), "f"), 128)

    def test_a_stack_pointer_moved_by_lea(self):
        self.assertEqual(deepest(code("f", "push %rax", "push %rax", "lea 0x10(%rsp),%rsp", "push %rbx", "ret"), "f"), 16)
        self.assertEqual(deepest(code("f", "leaq -24(%rsp), %rsp", "retq"), "f"), 24)


class Unknowns(unittest.TestCase):
    def refused(self, listing, name="f"):
        with self.assertRaises(stack.Unknown) as caught:
            deepest(listing, name)
        return str(caught.exception)

    def test_a_stack_pointer_from_elsewhere(self):
        self.assertEqual(self.refused(code("f", "mov %rax,%rsp", "ret")), "mov %rax,%rsp")

    def test_a_call_of_whatever_a_register_has(self):
        self.assertEqual(self.refused(code("f", "call *%rax", "ret")), "call *%rax")

    def test_two_depths_at_one_place(self):
        self.assertEqual(self.refused(code("f", "jne 2 <f+0x2>", "push %rbx", "ret")), "two depths at 2")
        self.assertEqual(self.refused(code("f", "push %rbx", "jne 0 <f>", "pop %rbx", "ret")), "two depths at 0")

    def test_code_that_runs_on_into_what_follows(self):
        self.assertEqual(self.refused(code("f", "push %rbx")), "no end behind 0")

    def test_functions_that_call_each_other(self):
        both = code("f", to("call", "g"), "ret") + code("g", to("call", "f"), "ret")
        self.assertEqual(self.refused(both), "f and g call each other")


class Counts(unittest.TestCase):
    CALLS_ITSELF = code("a::goes_on", "push %rbx", "call 0 <a::goes_on>", to("call", "a::inner"), "pop %rbx", "ret")

    def test_a_count_that_falls(self):
        once = 8 + 8 + OF_INNER
        self.assertEqual(deepest(self.CALLS_ITSELF + INNER, "a::goes_on", a__goes_on=10), 10 * 16 + once)

    def test_no_count_that_falls(self):
        with self.assertRaisesRegex(stack.Unknown, "a::goes_on calls itself"):
            deepest(self.CALLS_ITSELF, "a::goes_on")

    def test_counts_are_those_of_the_sources(self):
        self.assertEqual(stack.counts_of(ROOT)["stepping::take"], 2048)

    def test_no_other_function_calls_itself(self):
        """Above all none that works out a literal's path: a card's stack is small."""
        self.assertEqual(set(calling_themselves(ROOT)), set(stack.COUNTS))


class Calls(MadeUp):
    def test_a_function_of_another_crate(self):
        root = self.tree("""\
== a/src/lib.rt
pub fn one() {
    b::one();
}
== b/src/lib.rt
pub fn one() {
}

#[cfg(test)]
mod tests {
    #[test]
    fn calls_it() {
        one();
    }
}
""")
        self.assertEqual(list(calling_themselves(root)), [])

    def test_functions_that_call_themselves(self):
        root = self.tree("""\
== a/src/lib.rt
pub fn one() {
    two();
}

fn two() {
    three();
    four();
}

fn three() {
    two();
}

fn four() {
    one_more();
}

fn five() {
    five();
}
""")
        self.assertEqual(set(calling_themselves(root)), {"a::two", "a::three", "a::five"})


class Doors(MadeUp):
    def test_doors_are_those_of_the_first_table(self):
        table = "| door | promise |\n|---|---|\n| `a::one`, `two` | `b::not` |\n| `b::three` | |\n"
        text = f"# Doors\n\n{table}\n## Others\n\n| `c::four` | |\n"
        self.assertEqual(stack.doors_named(text), [("a", "one"), ("a", "two"), ("b", "three")])

    def test_every_door_has_its_stack_told(self):
        text = (ROOT / "docs" / "DOORS.md").read_text("utf-8")
        told = stack.doors_named(text.partition("\n## Stack\n")[2])
        self.assertEqual(sorted(told), sorted(stack.doors_named(text)))

    def test_every_door_can_be_exported(self):
        doors = stack.doors_named((ROOT / "docs" / "DOORS.md").read_text("utf-8"))
        text, below = exported.text_of(ROOT, doors)
        for crate, name in doors:
            self.assertIn(f'pub extern "C" fn {exported.symbol_of(crate, name)}(', text)
            self.assertIn(crate, below)

    def test_numbers_stand_for_enums_and_structs(self):
        root = self.tree("""\
== a/src/lib.rt
// What it is for.
pub type Room = [u8; 4];

pub struct Both {
    pub first: u8,
    pub found: Found,
}

pub enum Found {
    At { place: usize, good: bool },
    Of(u64),
    Nothing,
}

pub fn look(found: Found, room: &mut Room) -> Both
    ensures { result ≡ spec.look found }
{
    look_here(found)
}
""")
        text, below = exported.text_of(root, [("a", "look")])
        self.assertEqual(below, ["a"])
        self.assertEqual(text, """\
// Doors, exported to C.
#![tactic(auto)]

use a::Both;
use a::Found;
use a::Room;

fn found_as_found(found: u8, found_0_place: usize, found_0_good: bool, found_1_of0: u64) -> Found {
    if found == 0 {
        return Found::At { place: found_0_place, good: found_0_good };
    }
    if found == 1 {
        return Found::Of(found_1_of0);
    }
    Found::Nothing
}

#[unsafe(no_mangle)]
pub extern "C" fn a__look(found: u8, found_0_place: usize, found_0_good: bool, found_1_of0: u64, room: &mut Room, told: &mut [u64; 16]) {
    let answer = a::look(found_as_found(found, found_0_place, found_0_good, found_1_of0), room);
    let answer_first = answer.first;
    told[0] = answer_first as u64;
    let answer_found = answer.found;
    match answer_found {
        Found::At { place: answer_found_0_place, good: answer_found_0_good } => {
            told[1] = 0;
            told[2] = answer_found_0_place as u64;
            if answer_found_0_good {
                told[3] = 1;
            }
        }
        Found::Of(answer_found_1_of0) => {
            told[1] = 1;
            told[2] = answer_found_1_of0;
        }
        Found::Nothing => {
            told[1] = 2;
        }
    }
}
""")

    def test_a_door_that_is_not_there(self):
        with self.assertRaisesRegex(LookupError, "no public function a::look"):
            exported.text_of(self.tree("== a/src/lib.rt\nfn look() {}\n"), [("a", "look")])
