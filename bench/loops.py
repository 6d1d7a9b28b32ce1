#!/usr/bin/env python3
"""Measures the program beside two interpreters: loops.py PROGRAM, the path of a built lu_cli.

Three loops run as a server's deliveries, as Lua and as WebAssembly, each the same number of turns: arithmetic, an array of
structs, and a list with a call for each element. Then the program alone: 100,000 events, a source of 1 MiB, and a schedule of
8 MiB. It prints processor seconds. wasm-interp comes with Debian's wabt, lua5.4 with the package of that name."""
import os
import resource
import subprocess
import sys
import tempfile

DELIVERIES, TURNS = 20, 100_000

C_HEAD = "struct cell { int key; int value; };\nstruct node { int value; struct node *next; };\nstruct cell cells[100];\nstruct node *first;\nint total;\n"
C_INIT = """void init(void) {
  int i;
  for (i = 0; i < 100; i = i + 1) {
    struct node *n = malloc(sizeof(struct node));
    n->value = i; n->next = first; first = n; cells[i].value = i;
  }
}
"""
C_LOOPS = {
    "arithmetic": ("", f"for (i = 0; i < {TURNS}; i = i + 1) {{ total = (total * 3 + i) ^ (total >> 5); }}"),
    "array of structs": ("", f"for (j = 0; j < {TURNS // 100}; j = j + 1) {{ for (i = 0; i < 100; i = i + 1) {{ total = total + cells[i].value; }} }}"),
    "list with calls": (
        "void add(int v) { total = total + v; }\n",
        f"for (j = 0; j < {TURNS // 100}; j = j + 1) {{ struct node *n = first; while (n != 0) {{ add(n->value); n = n->next; }} }}",
    ),
}
LUA_LOOPS = {
    "arithmetic": f"for d = 1, {DELIVERIES} do for i = 0, {TURNS - 1} do total = ((total * 3 + i) ~ (total >> 5)) & 0xffffffff end end",
    "array of structs": f"for d = 1, {DELIVERIES * TURNS // 100} do for i = 1, 100 do total = total + cells[i].value end end",
    "list with calls": f"for d = 1, {DELIVERIES * TURNS // 100} do local n = first while n do add(n.value) n = n.next end end",
}
LUA_HEAD = "local total, cells, first = 0, {}, nil\nfor i = 0, 99 do cells[i + 1] = { key = 0, value = i } first = { value = i, next = first } end\nlocal function add(v) total = total + v end\n"
WAT_COUNT = "(local.set $i (i32.add (local.get $i) (i32.const 1))) (br_if $l (i32.lt_u (local.get $i) (i32.const %d)))"
WAT_LOOPS = {
    "arithmetic": "(global.set $t (i32.xor (i32.add (i32.mul (global.get $t) (i32.const 3)) (local.get $i)) (i32.shr_s (global.get $t) (i32.const 5))))",
    "array of structs": "(global.set $t (i32.add (global.get $t) (i32.load offset=4 (i32.mul (i32.rem_u (local.get $i) (i32.const 100)) (i32.const 8)))))",
    "list with calls": "(local.set $n (select (i32.load offset=4 (local.get $n)) (i32.const 1024) (local.get $n))) (call $add (i32.load (local.get $n)))",
}


def seconds(words, folder):
    before = resource.getrusage(resource.RUSAGE_CHILDREN)
    done = subprocess.run(words, cwd=folder, stdout=subprocess.DEVNULL, stderr=subprocess.DEVNULL)
    after = resource.getrusage(resource.RUSAGE_CHILDREN)
    took = after.ru_utime + after.ru_stime - before.ru_utime - before.ru_stime
    return f"{took:8.2f}" if done.returncode == 0 else f"failed {done.returncode}"


def write(folder, name, text):
    with open(os.path.join(folder, name), "w") as file:
        file.write(text)


def server(folder, source, schedule):
    write(folder, "plan", 'schedule = "s"\n[[server]]\nname = "x"\nnumber = 1\nsource = "x.c"\n')
    write(folder, "x.c", source)
    write(folder, "s", schedule)


def wat(name):
    count = DELIVERIES * TURNS
    return (
        "(module (memory 1) (global $t (mut i32) (i32.const 0)) (func $add (param $v i32) (global.set $t (i32.add (global.get $t) (local.get $v))))"
        f' (func (export "main") (local $i i32) (local $n i32) (loop $l {WAT_LOOPS[name]} {WAT_COUNT % count})))'
    )


def loops(program, folder):
    print(f"{DELIVERIES * TURNS:,} turns of a loop, processor seconds\n{'':18}{'lu_cli':>9}{'lua5.4':>9}{'wasm-interp':>13}")
    for name, (functions, body) in C_LOOPS.items():
        source = f"{C_HEAD}{C_INIT}{functions}void on_message(void) {{ int i = 0; int j = 0; {body} }}\n"
        server(folder, source, f"send 100 x 1\nrun x 1000000\n" * DELIVERIES)
        write(folder, "x.lua", f"{LUA_HEAD}{LUA_LOOPS[name]}\n")
        write(folder, "x.wat", wat(name))
        subprocess.run(["wat2wasm", "x.wat", "-o", "x.wasm"], cwd=folder, check=True)
        took = [seconds([program, "run", "plan"], folder), seconds(["lua5.4", "x.lua"], folder), seconds(["wasm-interp", "x.wasm", "--run-all-exports"], folder)]
        print(f"{name:18}{took[0]:>9}{took[1]:>9}{took[2]:>13}")


def texts(program, folder):
    plain = "void init(void) { }\nvoid on_message(void) { }\n"
    server(folder, plain, "send 100 x 1\nrun x 100\n" * 50_000)
    print(f"100,000 events           {seconds([program, 'run', 'plan'], folder)}")
    functions = "".join(f"int f{n}(int a, int b) {{ if (a < b) {{ return a + {n}; }} return b; }}\n" for n in range(4_000))
    long = functions + "/*" + " " * (1_048_576 - len(functions) - len(plain) - 4) + "*/" + plain
    server(folder, long, "")
    print(f"a source of 1 MiB        {seconds([program, 'run', 'plan'], folder)}")
    server(folder, plain, "# a line that says nothing\n" * (8_388_608 // 27))
    print(f"a schedule of 8 MiB      {seconds([program, 'run', 'plan'], folder)}")


def main():
    program = os.path.abspath(sys.argv[1])
    with tempfile.TemporaryDirectory() as folder:
        loops(program, folder)
        texts(program, folder)


main()
