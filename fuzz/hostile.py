#!/usr/bin/env python3
"""Gives the program files, words and ends that no usual producer makes, and compares what it answers with what the docs say.

    fuzz/hostile.py [--program PROGRAM] [--other OTHER] [--only WORD] [--large] [--jobs 4]
    fuzz/hostile.py --cases FOLDER [--program PROGRAM] [--only WORD]

A row has words, an input, a status and a text; a broken frame is given to every command that reads one, a broken submission to every
command that reads one. Where the text of a good file is not told here, it has to be that of OTHER, if one is named, and the status 0.
`--large` adds the rows whose files are as large as can be, those that take long, and runs in little memory. With `ulimit -s 1024` before it,
the program has so small a stack. Rows of commands that the program does not know are left out, and told. The status is 1 where a row fails.
Told at the end: how many rows there were of each kind, and which failed. `--cases` runs nothing: of each input it writes one row into a
folder, as `rt try --cases` takes it, with the other commands in turn; PROGRAM may be another one that knows the words.
"""

import collections
import json
import os
import re
import sys
from pathlib import Path
from subprocess import DEVNULL, PIPE

sys.path.insert(0, str(Path(__file__).resolve().parent.parent / "tools/lib"))
from arguments import Arguments
from makers import PERSISTS, generated, packed
from sides import answer, ran
from tally import Tally, by_threads, left_out

MIB = 2**20
FRAMES = ("run", "run --tight", "run --workers 4 --tend 1", "cull", "place", "bound", "compile", "compile --tight", "meaning", "migrate")
FRAMES += ("auto", "auto --cost")
SUBMISSIONS = ("check", "exec", "exec --trace --tend 1", "audit")

Row = collections.namedtuple("Row", "kind name words text status printed")


# Frames.

G = {"name": "g", "family": "graphics"}
FILL = {"op": "fill_buffer", "dst": "b", "offset": 0, "size": 16, "word": 7}
ONE = {"name": "p", "queue": "g", "writes": [{"new": "b"}], "ops": [FILL]}
A = {"format": 1, "queues": [G], "resources": [{"name": "b", "buffer": 16}], "passes": [ONE], "exports": ["b"]}
TEXT = packed(A)
BYTES = "07000000" * 4


def a(**members):
    return packed({**A, **members})


def one(**members):
    return a(passes=[{**ONE, **members}])


def fill(**members):
    return one(ops=[{**FILL, **members}])


def buffer(size, **members):
    return a(resources=[{"name": "b", "buffer": size, **members}])


def image(width, height, texel="r8", **members):
    """A frame of format 2 that clears an image."""
    spots = ["b"] if members.get("layers", 1) == 1 else [f"b/{k}" for k in range(min(members["layers"], 8))]
    ops = [{"op": "clear_image", "dst": spot, "value": 1} for spot in spots]
    return a(format=2, resources=[{"name": "b", "image": [width, height], "texel": texel, **members}], passes=[{**ONE, "ops": ops}], exports=[])


def nested(levels, opening="[", closing="]", core=""):
    return (opening * levels + core + closing * levels).encode()


def draws(count):
    rect = {"x": 0, "y": 0, "width": 1, "height": 1, "value": 3}
    ops = [{"op": "draw", "dst": "b", "clear": 1, "rects": [rect] * count}]
    return a(resources=[{"name": "b", "image": [1, 1], "texel": "r8"}], passes=[{**ONE, "ops": ops}])


def no_json():
    """Inputs that are no JSON value."""
    yield "empty", b""
    yield "spaces", b" \t\r\n" * 99
    yield "NUL", b"\0"
    yield "NUL before", b"\0" + TEXT
    yield "NUL behind", TEXT + b"\0"
    yield "NUL in a name", TEXT.replace(b'"name":"b"', b'"name":"b\0"')
    yield "line feed in a name", TEXT.replace(b'"name":"b"', b'"name":"b\n"')
    yield "byte order mark", b"\xef\xbb\xbf" + TEXT
    yield "UTF-16", TEXT.decode().encode("utf-16-le")
    yield "byte 255 in a name", TEXT.replace(b'"name":"b"', b'"name":"\xff"')
    yield "overlong NUL", TEXT.replace(b'"name":"b"', b'"name":"\xc0\x80"')
    yield "surrogate in UTF-8", TEXT.replace(b'"name":"b"', b'"name":"\xed\xa0\x80"')
    yield "past the last character", TEXT.replace(b'"name":"b"', b'"name":"\xf4\x90\x80\x80"')
    yield "cut character", TEXT[:-1] + b',"\xc3'
    yield "byte 255 in a key", TEXT.replace(b'"format"', b'"form\xffat"')
    yield "lone surrogate", TEXT.replace(b'"name":"b"', b'"name":"\\ud800"')
    yield "lone second surrogate", TEXT.replace(b'"name":"b"', b'"name":"\\udc00x"')
    yield "unknown escape", TEXT.replace(b'"name":"b"', b'"name":"\\x41"')
    yield "form feed between", TEXT.replace(b":", b":\f")
    yield "no-break space between", TEXT.replace(b":", b":\xc2\xa0")
    yield "comma at the end", TEXT[:-1] + b",}"
    yield "two values", TEXT + TEXT
    yield "value and bracket", TEXT + b"]"
    yield "comment", b"/**/" + TEXT
    yield "key without quotes", TEXT.replace(b'"format"', b"format")
    yield "single quotes", TEXT.replace(b'"', b"'")
    for number in ("NaN", "Infinity", "+1", "01", ".5", "1.", "1e", "-", "0x1", "1_0", "1e400", "-1e400", "9" * 400, "--1", "1 2"):
        yield f"number {number[:9]}", TEXT.replace(b'"format":1', b'"format":' + number.encode())
    for cut in range(1, len(TEXT), 7):
        yield f"front of {cut} bytes", TEXT[:cut]
    yield "200 times [", b"[" * 200
    yield "128 levels", nested(128)
    yield "128 levels of objects", nested(128, '{"a":', "}", "1")
    yield "127 levels in a member", TEXT[:-1] + b',"x":' + nested(127) + b"}"
    yield "a million times [", b"[" * 1_000_000
    yield "a million objects", b'{"a":' * 1_000_000


def broken_frames():
    """Texts that are values, with the fault's line."""
    for value in ("1", '"x"', "null", "true", "[]", "-0", "1e5", "[[]]", '""'):
        yield f"value {value}", value.encode(), "F2 $"
    yield "100 levels", nested(100), "F2 $"
    yield "127 levels", nested(127), "F2 $"
    yield "126 levels in a member", TEXT[:-1] + b',"x":' + nested(126) + b"}", "F2 $.x"
    yield "no member", b"{}", "F2 $.format"
    for number in ("1.0", "1e0", "-0", "-1", "0.1", "4294967296", "18446744073709551616", "1e308", "null", '"1"', "true", "[1]", "{}"):
        yield f"format {number}", b'{"format":' + number.encode() + b"}", "F2 $.format"
    for number in (0, 3, 4294967295):
        yield f"format {number}", packed({"format": number, "more": 1}), "F3 $.format"
    yield "format alone", b'{"format":1}', "F2 $.queues"
    yield "later format counts", b'{"format":1,"format":3}', "F3 $.format"
    yield "escaped format", b'{"\\u0066ormat":3}', "F3 $.format"
    for name in ("", "x" * 33, "x" * 100_000, "a b", "a/b", "\0", "é", "a\n", "\u202e"):
        yield f"queue {name[:9]!r}", a(queues=[{"name": name, "family": "graphics"}]), "F2 $.queues[0].name"
        yield f"pass {name[:9]!r}", one(name=name), "F2 $.passes[0].name"
        yield f"export {name[:9]!r}", a(exports=[name]), "F2 $.exports[0]"
    for spot in ("b/", "b/8", "b/00", "/0", "b/0/0", "b/-1", "b/a", "x" * 33 + "/0"):
        yield f"spot {spot[-9:]}", a(format=2, exports=[spot]), "F2 $.exports[0]"
        yield f"spot {spot[-9:]} of an operand", one(ops=[{**FILL, "dst": spot}]).replace(b'"format":1', b'"format":2'), "F2 $.passes[0].ops[0].dst"
    yield "layer in format 1", a(exports=["b/0"]), "F2 $.exports[0]"
    yield "layer of a buffer", a(format=2, exports=["b/0"]), "F6 $.exports[0]"
    yield "layer that is not there", image(1, 1, layers=2).replace(b'"exports":[]', b'"exports":["b/2"]'), "F6 $.exports[0]"
    for name, printed in (("é", "??"), ("\0", "?"), ("a\nb", "a?b"), ("\x7f~", "?~"), (" ", " "), ('"\\', '"\\'), ("", ""), ("x" * MIB, "x" * MIB)):
        yield f"member {name[:9]!r}", packed({**A, name: 0}), f"F2 $.{printed}"
    yield "first of unknown members", packed({**A, "zz": 0, "a": 0, "é": 0, "Z": 0}), "F2 $.Z"
    yield "unknown member of a queue", a(queues=[{**G, "more": 0}]), "F2 $.queues[0].more"
    for at, number in enumerate(("0", "-1", "1.0", "4294967296", "1e3", "true")):
        yield f"buffer of {number}", buffer(1).replace(b'"buffer":1', b'"buffer":' + number.encode()), "F2 $.resources[0].buffer"
        yield f"side {at} of {number}", image(1, 1).replace(b"[1,1]", b"[1," + number.encode() + b"]"), "F2 $.resources[0].image[1]"
    yield "no side", image(1, 1).replace(b"[1,1]", b"[]"), "F2 $.resources[0].image"
    yield "three sides", image(1, 1).replace(b"[1,1]", b"[1,1,1]"), "F2 $.resources[0].image"
    for layers in (0, 9, 4294967295):
        yield f"{layers} layers", image(1, 1).replace(b'"texel":"r8"', b'"texel":"r8","layers":%d' % layers), "F2 $.resources[0].layers"
    yield "layers in format 1", a(resources=[{"name": "b", "image": [1, 1], "texel": "r8", "layers": 1}]), "F2 $.resources[0].layers"
    yield "buffer and image", buffer(16, image=[1, 1]), "F2 $.resources[0].image"
    yield "no buffer and no image", a(resources=[{"name": "b"}]), "F2 $.resources[0].buffer"
    for digits in ("0", "0g", "é", "00 0", "0x00", "00\0" + "0" * 5):
        yield f"import {digits!r}", buffer(4, **{"import": digits}), "F2 $.resources[0].import"
    yield "import of nothing", buffer(16, **{"import": ""}), "F11 $.resources[0].import"
    yield "write with neither", one(writes=[{}]), "F2 $.passes[0].writes[0].new"
    yield "write with both", one(writes=[{"new": "b", "change": "b"}]), "F2 $.passes[0].writes[0].change"
    yield "side effect 1", one(side_effect=1), "F2 $.passes[0].side_effect"
    yield "unknown operation", fill(op="fill"), "F2 $.passes[0].ops[0].op"
    yield "word past 32 bits", fill(word=2**32), "F2 $.passes[0].ops[0].word"
    for at, size in ((4294967292, 8), (4294967292, 4294967292), (0, 0), (0, 20), (16, 4), (2, 4)):
        yield f"fill of {size} at {at}", one(ops=[FILL, {**FILL, "offset": at, "size": size}]), "F11 $.passes[0].ops[1].op"
        yield f"new by a fill of {size} at {at}", fill(offset=at, size=size), "F9 $.passes[0].writes[0]"
    for size, line in ((16 * MIB + 1, "F4 Size"), (2**32 - 1, "F4 Size")):
        yield f"buffer of {size}", buffer(size), f"{line} $.resources[0]"
    for sides, line in (((4096, 4096, "r32"), "F4 Size"), ((4097, 1), "F4 Side"), ((1, 4097), "F4 Side"), ((2**32 - 1, 2**32 - 1), "F4 Side")):
        yield f"image {sides}", image(*sides), f"{line} $.resources[0]"
    yield "257 passes", many_passes(257), "F4 Passes $.passes"
    yield "257 resources", many_buffers(257), "F4 Resources $.resources"
    yield "257 layers", many_layers(33), "F4 Resources $.resources"
    yield "5 queues", queues(5), "F4 Queues $.queues"
    yield "no queue", a(queues=[]), "F4 Queues $.queues"
    yield "257 operations", operations(257), "F4 Ops $.passes[0].ops"
    yield "257 operations of two passes", a(passes=[one_of(128), {**one_of(129), "name": "q"}]), "F4 Ops $.passes[1].ops"
    yield "4,097 rectangles", draws(4097), "F4 Rects $.passes[0].ops[0].rects"
    yield "4,097 rectangles of a buffer", fill_draws(4097), "F4 Rects $.passes[0].ops[0].rects"
    yield "33 exports", exports(33), "F4 Exports $.exports"
    yield "33 exports of nothing", a(exports=["x"] * 33), "F4 Exports $.exports"
    yield "5 exports of 8 layers", many_layers(5).replace(b'"exports":[]', b'"exports":["b0","b1","b2","b3","b4"]'), "F4 Exports $.exports"
    yield "4 exports of 8 layers", many_layers(5).replace(b'"exports":[]', b'"exports":["b0","b1","b2","b3"]'), "F10 $.exports[0]"
    yield "17 buffers of 16 MiB", total(17), "F4 Total $.resources[16]"
    yield "name twice", a(queues=[G, G]), "F5 $.queues[1]"
    yield "export twice", a(exports=["b", "b"]), "F5 $.exports[1]"


# Numbers that are a float, or no number, in the place of `format`; which they are is told by another program alone.
FLOATS = ("0e999999999999", "0.0e-999999999999", "1e-400", "1E+5", "1e00000000000005", "0." + "0" * 1000 + "1", "-0.0", "9" * 300, "1" + "0" * 308)
FLOATS += ("1" + "0" * 309, "1.7976931348623157e308", "1.7976931348623159e308", "4.9e-324", "2e-324")
FLOATS += ("1e309", "0.1e309", "0." + "0" * 400 + "1e709", "1" * 100_000 + "e-99999", "1e99999999999999999999", "1e-99999999999999999999", "18446744073709551615", "-1e999")
FLOATS += ("1.0000000000000000000000000001", "1e1.5", "1e+-5", "1ee5", "1.2.3", "-", "--0", "- 1", "1e ", "+0", "00", "-00", "0x0", "1d5", "١", "1,2", "1" + "0" * 400 + ".0")

# Numbers above the greatest float, and nearer to it than to the next power of two: a float is near. (So serde_json reads with its feature
# for exact floats; without it there is none.)
GREATEST = ("1.7976931348623158e308", "17976931348623158" + "0" * 292)


def one_of(count):
    return {**ONE, "ops": [FILL] * count}


def operations(count):
    return a(passes=[one_of(count)])


def fill_draws(count):
    rect = {"x": 0, "y": 0, "width": 1, "height": 1, "value": 3}
    return one(ops=[{"op": "draw", "dst": "b", "rects": [rect] * count}])


def many_passes(count):
    return a(resources=[], passes=[{"name": f"p{k}", "queue": "g"} for k in range(count)], exports=[])


def many_buffers(count):
    return a(resources=[{"name": f"b{k}", "buffer": 1} for k in range(count)], passes=[], exports=[])


def many_layers(count):
    """Images of eight layers; 33 of them have 264, of which the first eight 32 are allowed."""
    return a(format=2, resources=[{"name": f"b{k}", "image": [1, 1], "texel": "r8", "layers": 8} for k in range(count)], passes=[], exports=[])


def queues(count):
    return a(queues=[{"name": "g" if k == 0 else f"g{k}", "family": "graphics"} for k in range(count)])


def exports(count):
    resources = [{"name": f"b{k}", "buffer": 1, "import": f"{k:02x}"} for k in range(count)]
    return a(resources=resources, passes=[], exports=[one["name"] for one in resources])


def total(count):
    return a(resources=[{"name": f"b{k}", "buffer": 16 * MIB} for k in range(count)], passes=[], exports=[])


def good_frames():
    """Texts, and what some commands print."""
    run = f"kept 1 culled 0\nexport b 16\n{BYTES}\n"
    yield "one fill", TEXT, {"run": run, "meaning": run.split("\n", 1)[1], "place": "heap 16 separate 16\n0 16 b\n"}
    yield "line ends of two bytes", b"\r\n".join(json.dumps(A, indent=1).encode().split(b"\n")), {"run": run}
    yield "spaces around", b" \t\r\n" + TEXT + b"\r\n\t ", {"run": run}
    yield "escaped letters", TEXT.replace(b'"b"', b'"\\u0062"').replace(b'"format"', b'"\\u0066\\u006Frmat"'), {"run": run}
    yield "later key counts", b'{"format":3,"exports":7,' + TEXT[1:], {"run": run}
    yield "absent lists", one().replace(b'"side_effect":false,', b""), {"run": run}
    widest = "Az9_-." * 5 + "zz"
    yield "name of 32", TEXT.replace(b'"b"', f'"{widest}"'.encode()), {"run": run.replace("export b", f"export {widest}")}
    yield "greatest numbers", fill(word=2**32 - 1), {"run": f"kept 1 culled 0\nexport b 16\n{'f' * 32}\n"}
    yield "4 queues", queues(4), {"run": run}
    yield "256 passes", many_passes(256), {"cull": "kept 0 culled 256\n" + "".join(f"pass p{k} culled\n" for k in range(256)), "place": "heap 0 separate 0\n"}
    yield "256 buffers", many_buffers(256), {"run": "kept 0 culled 0\n", "bound": "bound 0 heap 0\n"}
    yield "256 layers", many_layers(32), {"cull": "kept 0 culled 0\n"}
    yield "256 operations", operations(256), {"run": run}
    yield "4,096 rectangles", draws(4096), {"run": "kept 1 culled 0\nexport b 1\n03\n"}
    yield "32 exports", exports(32), {"meaning": "".join(f"export b{k} 1\n{k:02x}\n" for k in range(32))}
    yield "nothing", a(resources=[], passes=[], exports=[]), {"run": "kept 0 culled 0\n", "meaning": "", "auto --cost": "cost 0 0\n"}
    yield "8 layers", image(2, 2, layers=8), {"cull": "kept 0 culled 1\npass p culled\n"}
    yield "sides of 4,096", image(4096, 1), {"run": "kept 0 culled 1\nculled p\n"}
    yield "16 buffers of 16 MiB", total(16), {"run": "kept 0 culled 0\n", "place": "heap 0 separate 0\n"}


def frame_rows(commands):
    for name, text, line in [(name, text, "F1 $") for name, text in no_json()] + list(broken_frames()):
        for words in commands:
            yield Row("broken frames", name, words, text, 2, f"fault {line}\n")
        first, _, rest = text.partition(b"\n")
        if text and not rest and not text.endswith(b"\n"):
            yield Row("broken frames in a flight", name, "flight", text, 2, f"frame 0 fault {line}\n")
            yield Row("broken frames in a flight", name, "flight --depth 8", TEXT + b"\r\n" + text + b"\n" + text, 2, f"frame 1 fault {line}\n")
    for number in FLOATS:
        yield Row("numbers", number[:20], "migrate", b'{"format":' + number.encode() + b"}", 2, None)
        yield Row("numbers", number[:20], "cull", TEXT[:-1] + b',"x":[' + number.encode() + b"]}", 2, None)
    for number in GREATEST:
        yield Row("numbers", number[:20], "migrate", b'{"format":' + number.encode() + b"}", 2, "fault F2 $.format\n")
        yield Row("numbers", number[:20], "cull", TEXT[:-1] + b',"x":[' + number.encode() + b"]}", 2, "fault F2 $.x\n")
    for name, text, told in good_frames():
        for words in commands:
            yield Row("good frames", name, words, text, 0, told.get(words))


# Submissions.

ALL = "ALL_COMMANDS"
SIGNAL = {"value": 1, "stage": ALL}
B = {"item": "global", "src_stage": "COPY", "src_access": "", "dst_stage": "COPY", "dst_access": ""}
COMPILED = (
    '{"format":2,"memories":[{"size":16},{"size":16}],"pieces":[{"buffer":16,"memory":0,"offset":0},{"buffer":16,"memory":1,"offset":0}],'
    '"queues":[{"batches":[{"items":[{"dst":0,"item":"command","offset":0,"op":"fill_buffer","size":16,"word":7},{"dst_access":"TRANSFER_READ",'
    '"dst_stage":"COPY","item":"buffer","piece":0,"src_access":"TRANSFER_WRITE","src_stage":"CLEAR"},{"dst":1,"dst_offset":0,"item":"command",'
    '"op":"copy_buffer","size":16,"src":0,"src_offset":0},{"dst_access":"HOST_READ","dst_stage":"HOST","item":"buffer","piece":1,'
    '"src_access":"TRANSFER_WRITE","src_stage":"COPY"}],"signal":{"stage":"ALL_COMMANDS","value":1},"waits":[]}],"family":"graphics"}],"readbacks":[1]}'
).encode()
EVENTS = ["begin 0", "end 0", "sync 1", "begin 2", "end 2", "sync 3", "sync 4", "host 5"]
READ = f"readback 0 16\n{BYTES}\n"


def batch(items=(), waits=(), signal=SIGNAL):
    return {"waits": list(waits), "items": list(items), **({"signal": signal} if signal else {})}


def program(batches=(), memories=(), pieces=(), readbacks=(), families=("graphics",)):
    each = list(batches) or [[]]
    own = [{"family": families[k % len(families)], "batches": list(one)} for k, one in enumerate(each)]
    return packed({"format": 2, "memories": list(memories), "pieces": list(pieces), "queues": own, "readbacks": list(readbacks)})


def barriers(count):
    return program([[batch([B] * count)]])


def piece(**members):
    """A program with one memory of 512 bytes and one piece."""
    return program([], [{"size": 512}], [{"buffer": 4, "memory": 0, "offset": 0, **members}])


def wait(value):
    return program([[batch(waits=[{"queue": 0, "value": value, "stage": ALL}])]])


def masked(**masks):
    return program([[batch([{**B, **masks}])]])


def pieces(count):
    return program([], [{"size": 4}], [{"buffer": 4, "memory": 0, "offset": 0}] * count)


def read_backs(count):
    """Read-backs of an import."""
    return program([[]], [{"import": "01020304"}], [{"buffer": 4, "memory": 0, "offset": 0}], [0] * count)


def rectangles(count):
    rect = {"x": 0, "y": 0, "width": 1, "height": 1, "value": 3}
    draw = {"item": "command", "op": "draw", "dst": 0, "clear": 1, "rects": [rect] * count}
    turn = {"item": "image", "piece": 0, "from": "UNDEFINED", "to": "COLOR_ATTACHMENT_OPTIMAL", "src_stage": "COLOR_ATTACHMENT_OUTPUT"}
    turn.update({"src_access": "", "dst_stage": "COLOR_ATTACHMENT_OUTPUT", "dst_access": "COLOR_ATTACHMENT_WRITE"})
    return program([[batch([turn, draw])]], [{"size": 4}], [{"image": [1, 1], "texel": "r8", "memory": 0, "offset": 0}])


def broken_submissions():
    for cut in range(len(COMPILED)):
        yield f"front of {cut} bytes", COMPILED[:cut], "G10 $"
    for name, text in no_json():
        if not name.startswith(("front", "number")):
            yield name, text.replace(TEXT, COMPILED), "G10 $"
    for value in ("1", '"x"', "null", "[]"):
        yield f"value {value}", value.encode(), "G11 $"
    yield "127 levels", nested(127), "G11 $"
    for number in ("0", "3", "1.0", "-0", "4294967297", "18446744073709551616", '"2"'):
        yield f"format {number}", COMPILED.replace(b'"format":2', b'"format":' + number.encode()), "G11 $.format"
    yield "format alone", b'{"format":2}', "G11 $.memories"
    for name, printed in (("é", "??"), ("\0", "?"), ("a\nb", "a?b")):
        yield f"member {name!r}", packed({**json.loads(COMPILED), name: 0}), f"G11 $.{printed}"
    signal = "$.queues[0].batches[0].signal"
    at = "$.queues[0].batches[0].waits[0]"
    item = "$.queues[0].batches[0].items[0]"
    yield "wait for 0", wait(0), f"G9 {at}"
    yield "wait for 2^64", wait(2**64), f"G11 {at}.value"
    yield "wait for -1", wait(-1), f"G11 {at}.value"
    yield "signal 0", program([[batch(signal={"value": 0, "stage": ALL})]]), f"G9 {signal}"
    yield "signal 2^64", program([[batch(signal={"value": 2**64, "stage": ALL})]]), f"G11 {signal}.value"
    yield "signal of the host", program([[batch(signal={"value": 1, "stage": "HOST"})]]), f"G7 {signal}"
    for mask in ("COPY|", "|", "COPY||CLEAR", "copy", " COPY", "COPY ", "COPY\0", "é", "X" * 100_000, "COPY|" * 20_000):
        yield f"stage {mask[:9]!r}", masked(src_stage=mask), f"G11 {item}.src_stage"
        yield f"access {mask[:9]!r}", masked(src_access=mask), f"G11 {item}.src_access"
    yield "no stage", masked(src_stage=""), f"G4 {item}"
    yield "offset past all", piece(offset=2**32 - 256), "G2 $.pieces[0]"
    yield "offset 1", piece(offset=1), "G2 $.pieces[0]"
    yield "offset 2^32", piece(offset=2**32), "G11 $.pieces[0].offset"
    yield "piece past the end", piece(offset=512), "G2 $.pieces[0]"
    yield "memory 1", piece(memory=1), "G3 $.pieces[0]"
    yield "memory 2^32 - 1", piece(memory=2**32 - 1), "G3 $.pieces[0]"
    yield "piece of 0", piece(buffer=0), "G11 $.pieces[0].buffer"
    yield "piece of 16 MiB and 1", piece(buffer=16 * MIB + 1), "G1 Size $.pieces[0]"
    yield "piece of 2^32 - 1", piece(buffer=2**32 - 1), "G1 Size $.pieces[0]"
    layers = {"image": [4096, 4096], "texel": "r8", "layers": 8, "memory": 0, "offset": 2**32 - 256}
    yield "layer past 32 bits", program([], [{"size": 512}], [layers]), "G11 $.pieces[0].layers"
    yield "side of 4,097", program([], [{"size": 8192}], [{"image": [4097, 1], "texel": "r8", "memory": 0, "offset": 0}]), "G1 Side $.pieces[0]"
    yield "5 queues", program([[]] * 5), "G1 Queues $.queues"
    yield "no queue", program().replace(b'{"family":"graphics","batches":[]}', b""), "G1 Queues $.queues"
    yield "513 memories", program([], [{"size": 0}] * 513), "G1 Memories $.memories"
    yield "513 pieces", pieces(513), "G1 Pieces $.pieces"
    yield "20,001 nodes", barriers(20_000), "G1 Nodes $"
    yield "a million waits", program([[batch(waits=[{"queue": 0, "value": 1, "stage": ALL}] * 100_000)]]), "G1 Nodes $"
    yield "4,097 rectangles", rectangles(4097), "G1 Rects $.queues[0].batches[0].items[1]"
    yield "33 read-backs", read_backs(33), "G1 Readbacks $.readbacks"
    yield "768 MiB and a byte", program([], [{"size": 768 * MIB}, {"size": 1}]), "G1 Total $.memories[1]"
    yield "twice 2^32 - 1", program([], [{"size": 2**32 - 1}] * 2), "G1 Total $.memories[0]"
    yield "read-back 2^32 - 1", program([], [], [], [2**32 - 1]), "G3 $.readbacks[0]"
    yield "read-back 2^32", program([], [], [], [2**32]), "G11 $.readbacks[0]"
    yield "odd import", program([], [{"import": "0"}]), "G11 $.memories[0].import"
    yield "size and import", program([], [{"size": 1, "import": "00"}]), "G11 $.memories[0].import"
    yield "a batch that is null", program([[None]]), "G11 $.queues[0].batches[0]"
    yield "a signal that is null", program([[batch(signal={})]]).replace(b'"items":[]', b'"items":[],"signal":null'), f"G11 {signal}"


def unsound_submissions():
    four = [{"size": 256}, {"size": 256}, {"import": "01000000"}]
    parts = [{"buffer": 4, "memory": k, "offset": 0} for k in range(3)]
    copy = {"item": "command", "op": "copy_buffer", "src": 2, "dst": 0, "src_offset": 0, "dst_offset": 0, "size": 4}
    plus = {"item": "command", "op": "map", "src": 0, "dst": 1, "fun": "add", "value": 1}
    bare = {**B, "dst_stage": "COMPUTE_SHADER", "dst_access": "SHADER_STORAGE_READ"}
    yield "no barrier", program([[batch([copy, plus])]], four, parts, [1]), "H2 0 1"
    yield "not available", program([[batch([copy, bare, plus])]], four, parts, [1]), "H3 0 2"
    yield "wait that is never met", wait(5), "H1 0 0"
    yield "wait for 2^64 - 1", wait(2**64 - 1), "H1 0 0"
    crossed = [[batch(waits=[{"queue": 1 - k, "value": 1, "stage": ALL}])] for k in range(2)]
    yield "crossed waits", program(crossed), "H1 0 0"
    ring = [[batch(waits=[{"queue": (k + 1) % 4, "value": 1, "stage": ALL}] * 2)] for k in range(4)]
    yield "a ring of four", program(ring), "H1 0 0"
    yield "read-back of nothing", program([], [{"size": 4}], [{"buffer": 4, "memory": 0, "offset": 0}], [0]), "H8 0 0"


def good_submissions():
    """Texts, how many nodes they have, and what is read back."""
    yield "one fill", COMPILED, 6, READ
    yield "spaces", b" \t\r" + COMPILED.replace(b":", b"\t:\r ") + b"\r", 6, READ
    yield "nothing", program(), 0, ""
    yield "20,000 nodes", barriers(19_999), 20_000, ""
    yield "4 queues", program([[]] * 4), 0, ""
    yield "512 memories", program([], [{"size": 0}] * 512), 0, ""
    yield "512 pieces", pieces(512), 0, ""
    yield "32 read-backs", read_backs(32), 32, "".join(f"readback {k} 4\n01020304\n" for k in range(32))
    yield "4,096 rectangles", rectangles(4096), 3, ""
    yield "signal 2^64 - 1", program([[batch(signal={"value": 2**64 - 1, "stage": ALL})]]), 1, ""
    met = [[batch(signal={"value": 2**64 - 1, "stage": ALL}), batch(waits=[{"queue": 0, "value": 1, "stage": ALL}], signal=None)]]
    yield "wait that a later value meets", program(met), 2, ""
    yield "names that repeat", masked(src_stage="COPY|CLEAR|COPY" * 1, dst_stage="|".join(["COPY"] * 20_000)), 2, ""
    yield "all stages", masked(src_stage="ALL_COMMANDS|HOST|ALL_TRANSFER", dst_stage=ALL), 2, ""
    yield "layers to the end", program([], [{"size": 2048}], [{"image": [1, 1], "texel": "r8", "layers": 8, "memory": 0, "offset": 0}]), 0, ""


def trace(lines, count=None):
    return "".join(f"{line}\n" for line in (f"events {len(lines) if count is None else count}", *lines)).encode()


def traces():
    """What stands behind the submission of the one fill, with status and text."""
    good = f"run 8 events\n{READ}"
    text = trace(EVENTS)
    yield "run", text, 0, good
    yield "no line feed at the end", text[:-1], 2, "fault A1 8\n"
    yield "line feed more", text + b"\n", 2, "fault A1 9\n"
    yield "NUL behind", text + b"\0", 2, "fault A1 9\n"
    yield "NUL in a line", text.replace(b"sync 1", b"sync 1\0"), 2, "fault A1 3\n"
    yield "line ends of two bytes", text.replace(b"\n", b"\r\n"), 2, "fault A1 0\n"
    yield "line end of two bytes", text.replace(b"sync 1\n", b"sync 1\r\n"), 2, "fault A1 3\n"
    yield "byte 255", text.replace(b"sync 1", b"sync \xff"), 2, "fault A1 3\n"
    yield "capital", text.replace(b"sync 1", b"Sync 1"), 2, "fault A1 3\n"
    yield "tab", text.replace(b"sync 1", b"sync\t1"), 2, "fault A1 3\n"
    yield "two spaces", text.replace(b"sync 1", b"sync  1"), 2, "fault A1 3\n"
    yield "space behind", text.replace(b"sync 1", b"sync 1 "), 2, "fault A1 3\n"
    yield "space before", text.replace(b"sync 1", b" sync 1"), 2, "fault A1 3\n"
    for number in ("01", "00", "+1", "-1", "1.0", "4294967296", "9" * 10_000, "", "1 1", "x"):
        yield f"number {number[:9]}", text.replace(b"sync 1", b"sync " + number.encode()), 2, "fault A1 3\n"
        if number != "1 1":
            yield f"count {number[:9]}", text.replace(b"events 8", b"events " + number.encode()), 2, "fault A1 0\n"
    yield "node past all", text.replace(b"sync 1", b"sync 4294967295"), 1, "hazard A3 2\n"
    yield "count too small", text.replace(b"events 8", b"events 7"), 2, "fault A1 8\n"
    yield "count too great", text.replace(b"events 8", b"events 9"), 2, "fault A1 9\n"
    yield "count 65,537", text.replace(b"events 8", b"events 65537"), 2, "fault A2 65537\n"
    yield "count 2^32 - 1", text.replace(b"events 8", b"events 4294967295"), 2, "fault A2 4294967295\n"
    yield "count 65,537 before a wrong line", b"events 65537\nx", 2, "fault A2 65537\n"
    yield "nothing behind the line feed", b"", 2, "fault A1 0\n"
    yield "count alone", b"events 0\n", 1, "hazard A4 0\n"
    yield "count without line feed", b"events 0", 2, "fault A1 0\n"
    yield "second begin", trace(["begin 0", "begin 0"]), 1, "hazard A3 1\n"
    yield "end first", trace(["end 0"]), 1, "hazard A3 0\n"
    yield "begin of a barrier", trace(["begin 1"]), 1, "hazard A3 0\n"
    yield "host first", trace(["host 5"]), 1, "hazard A3 0\n"
    move = "fill 0 0 0 16"
    yield "65,536 events", trace([move] * 65_528 + EVENTS), 0, f"run 65536 events\n{READ}"
    yield "65,537 events", trace([move] * 65_529 + EVENTS), 2, "fault A2 65537\n"
    yield "move to the end", trace([move, *EVENTS]), 0, f"run 9 events\n{READ}"
    yield "move past the end", trace(["fill 0 0 0 17", *EVENTS]), 1, "hazard A3 0\n"
    yield "sum past 32 bits", trace(["fill 0 0 4294967295 4294967295", *EVENTS]), 1, "hazard A3 0\n"
    yield "move of nothing at the end", trace(["drop 7 1 16 0", *EVENTS]), 0, f"run 9 events\n{READ}"
    yield "move of nothing past the end", trace(["drop 7 1 17 0", *EVENTS]), 1, "hazard A3 0\n"
    yield "agent 8", trace(["writeback 8 0 0 1", *EVENTS]), 1, "hazard A3 0\n"
    yield "memory 2", trace(["writeback 0 2 0 0", *EVENTS]), 1, "hazard A3 0\n"


def submission_rows(commands):
    for name, text, line in broken_submissions():
        for words in commands:
            if words != "audit":
                yield Row("broken submissions", name, words, text, 2, f"fault {line}\n")
            elif b"\n" not in text:
                yield Row("broken submissions", name, words, text + b"\nevents 65537\n", 2, f"fault {line}\n")
    for name, text, line in unsound_submissions():
        for words in commands:
            behind = b"\n" + trace(["sync 7"]) if words == "audit" else b""
            yield Row("unsound submissions", name, words, text + behind, 1, f"hazard {line}\n")
    for name, text, nodes, read in good_submissions():
        told = {"check": f"accepted {nodes} nodes\n", "exec": read}
        for words in commands:
            if words in told:
                yield Row("good submissions", name, words, text, 0, told[words])
            elif words == "audit":
                line = (0, f"run 0 events\n{read}") if nodes == 0 else (1, "hazard A4 0\n")
                yield Row("good submissions", name, words, text.replace(b"\n", b"") + b"\nevents 0\n", *line)
            else:
                yield Row("good submissions", name, words, text, 0, None if nodes else "events 0\n" if b'"size"' not in text else None)
    if "audit" in commands:
        yield Row("traces", "no line feed", "audit", COMPILED, 2, "fault A1 0\n")
        for name, text, status, printed in traces():
            yield Row("traces", name, "audit", COMPILED + b"\n" + text, status, printed)


# Lists of frames.


def flown(count, first=2, step=1):
    return "".join(f"frame {k} export c 4 {first + step * k:02x}000000\n".replace(" export", "\nexport").replace(" 4 ", " 4\n") for k in range(count))


def flight_rows():
    line = packed(PERSISTS)

    def row(name, words, text, status, printed):
        return Row("flights", name, " ".join(("flight", *words.split(" "))) if words else "flight", text, status, printed)

    for depth in range(1, 9):
        yield row(f"64 frames at depth {depth}", f"--persist b --depth {depth}", (line + b"\n") * 64, 0, flown(64))
    yield row("64 frames", "", (line + b"\n") * 64, 0, flown(64, step=0))
    yield row("65 frames", "", (line + b"\n") * 65, 2, "fault L1\n")
    yield row("65 lines of nothing", "", b"\n" * 65, 2, "fault L1\n")
    yield row("64 lines of nothing", "", b"\n" * 64, 2, "frame 0 fault F1 $\n")
    yield row("empty", "", b"", 2, "fault L1\n")
    yield row("a line feed", "", b"\n", 2, "frame 0 fault F1 $\n")
    yield row("no last line feed", "--persist b", line + b"\n" + line, 0, flown(2))
    yield row("line ends of two bytes", "--persist b", (line + b"\r\n") * 2, 0, flown(2))
    yield row("space behind the last line feed", "", line + b"\n ", 2, "frame 1 fault F1 $\n")
    yield row("line feed more", "", line + b"\n\n", 2, "frame 1 fault F1 $\n")
    yield row("line feed within", "", TEXT.replace(b",", b",\n", 1), 2, "frame 0 fault F1 $\n")
    yield row("NUL behind", "", line + b"\n\0", 2, "frame 1 fault F1 $\n")
    yield row("first fault", "--persist c", b"\n".join((line, a(format=3), b"[")), 2, "frame 1 fault F3 $.format\n")
    yield row("other queues", "--persist c", line + b"\n" + packed({**PERSISTS, "queues": [G, {**G, "name": "h"}]}), 2, "fault L2 1\n")
    yield row("other family", "", TEXT + b"\n" + a(queues=[{**G, "family": "compute"}]), 2, "fault L2 1\n")
    yield row("other name of the queue", "", line + b"\n" + line.replace(b'"g"', b'"h"'), 2, "fault L2 1\n")
    yield row("no import", "--persist c", line, 2, "fault L3 0 c\n")
    longer = line.replace(b'"b","buffer":4,"import":"01000000"', b'"b","buffer":8,"import":"0100000000000000"')
    wide = longer.replace(b'"c","buffer":4', b'"c","buffer":8')
    yield row("other size", "--persist zz,b", line + b"\n" + wide, 2, "fault L3 1 b\n")
    yield row("name that nobody has", "--persist zz", line, 0, flown(1))
    many = ",".join(f"n{k}" for k in range(15)) + ",b"
    yield row("16 names", f"--persist {many}", (line + b"\n") * 3, 0, flown(3))
    yield row("17 names", f"--persist {many},zz", line, 3, "words\n")
    widest = "Az9_-." * 5 + "zz"
    yield row("name of 32", f"--persist {widest}", (line.replace(b'"b"', f'"{widest}"'.encode()) + b"\n") * 2, 0, flown(2))
    for names in ("b,b", "b,", ",b", ",", "b,,c", "x" * 33, "b/0", "é", "b c".split()[0] + ";c"):
        yield row(f"names {names[:9]}", f"--persist {names}", line, 3, "words\n")
    yield Row("flights", "no name", ["flight", "--persist", ""], line, 3, "words\n")
    yield Row("flights", "name with a space", ["flight", "--persist", "b c"], line, 3, "words\n")
    yield row("32 exports and one", "--depth 2", exports(32) + b"\n" + TEXT, 2, "fault L4 0 Exports\n")
    yield row("32 exports and one, apart", "--depth 1", exports(32) + b"\n" + a(passes=[], exports=[]), 0, None)
    yield row("256 passes and one", "--depth 8", many_passes(256) + b"\n" + many_passes(1), 2, "fault L4 0 Passes\n")
    yield row("256 passes twice, apart", "--depth 1", (many_passes(256) + b"\n") * 2, 0, "frame 0\nframe 1\n")
    yield row("129 buffers twice", "--depth 2", (many_buffers(129) + b"\n") * 2, 2, "fault L4 0 Resources\n")
    yield row("129 operations twice", "--depth 2", (operations(129) + b"\n") * 2, 2, "fault L4 0 Ops\n")
    yield row("2,049 rectangles twice", "--depth 2", (draws(2049) + b"\n") * 2, 2, "fault L4 0 Rects\n")
    yield row("9 buffers of 16 MiB twice", "--depth 2", (total(9) + b"\n") * 2, 2, "fault L4 0 Total\n")
    yield row("in the second window", "--depth 2", b"\n".join([TEXT] * 2 + [exports(32)] * 2), 2, "fault L4 1 Exports\n")


# Words.

WORDS = ("", "run a b", "Run", "RUN", "run\n", "--help", "-h", "--version", "-V", "help", "run --help", "--", "run -- x y", "- run", "gen --number 1 x", "gen --number 1 -")
WORDS += ("check --workers 2", "check --tight", "cull --trace", "place --tend 1", "meaning --workers 1", "migrate --tight", "bound --cost", "compile --trace")
WORDS += ("compile --workers 2", "exec --tight", "audit --trace", "audit --workers 2", "gen", "gen --passes 3", "gen --number 1 --workers 2", "gen --number 1 --tend 2")
WORDS += ("gen --number 4294967296", "gen --number -1", "gen --number 1 --passes 0", "gen --number 1 --passes 257", "gen --number 1 --number 1", "gen --number 1 --trace")
WORDS += ("run --workers", "run --workers 0", "run --workers 17", "run --workers 00000000001", "run --workers +1", "run --workers -1", "run --workers 1.0", "run --workers 0x1")
WORDS += ("run --workers 1 --workers 1", "run --workers 99999999999999999999", "run --workers ١", "run --workers é", "run --workers 1,2", "run --tend 4294967296")
WORDS += ("run --tend -1", "run --tend --trace", "run --trace --trace", "run --trace=1", "run --tight=true", "run --work 2", "run -workers 2", "run --depth 2", "run --persist b")
WORDS += ("run --cost", "auto --tight", "auto --cost --cost", "flight --depth 0", "flight --depth 9", "flight --trace", "flight --tight", "flight --persist b --persist c")
WORDS += ("flight --depth 00000000002", "gen --number 00000000001", "audit check check", "é", "\x01", "compile --json", "auto --json", "cull --json=1", "check --json --json")
UNREAD = ("run run", "run -- x", "run x", "check audit", "run é", "run \x7f", "check --json x", "meaning no/such/folder", "cull /", "flight .")
GOOD_WORDS = ("run --", "run --workers 16", "run --workers 0000000002", "run --workers=2", "--workers 2 run", "run --tend 4294967295", "run --tend 0", "run --tight --workers 1 --tend 3")


def word_rows():
    for words in WORDS:
        yield Row("words", repr(words), [word for word in words.split(" ") if word], TEXT, 3, "words\n")
    yield Row("words", "an empty word", [""], TEXT, 3, "words\n")
    for words in UNREAD:
        yield Row("words", repr(words), words.split(" "), TEXT, 4, "")
    yield Row("words", "an empty word behind", ["run", ""], TEXT, 4, "")
    yield Row("words", "an empty number", ["run", "--workers", ""], TEXT, 3, "words\n")
    yield Row("words", "a space in a number", ["run", "--workers", " 2"], TEXT, 3, "words\n")
    yield Row("words", "a word of 100,000 bytes", ["x" * 100_000], TEXT, 3, "words\n")
    yield Row("words", "a number of 100,000 digits", ["run", "--workers", "0" * 100_000], TEXT, 3, "words\n")
    yield Row("words", "10,000 words", ["run"] * 10_000, TEXT, 3, "words\n")
    yield Row("words", "10,000 options", ["run"] + ["--trace"] * 10_000, TEXT, 3, "words\n")
    yield Row("words", "a word that is no UTF-8", [b"r\xffn"], TEXT, 3, "words\n")
    yield Row("words", "a word behind that is no UTF-8", [b"run", b"\xed\xa0\x80"], TEXT, 3, "words\n")
    for words in GOOD_WORDS:
        yield Row("words", words, words.split(" "), TEXT, 0, f"kept 1 culled 0\nexport b 16\n{BYTES}\n")


# Large inputs: as long as can be, and a byte longer.


def padded(text, length):
    return text + b" " * (length - len(text))


def large_rows(frames, submissions, flies):
    for words in frames:
        yield Row("large frames", "16 MiB of spaces", words, padded(b"", 16 * MIB), 2, "fault F1 $\n")
        yield Row("large frames", "16 MiB and one", words, padded(TEXT, 16 * MIB + 1), 2, "fault F4 Input $\n")
        yield Row("large frames", "16 MiB of [", words, b"[" * 16 * MIB, 2, "fault F1 $\n")
        yield Row("large frames", "16 MiB", words, padded(TEXT, 16 * MIB), 0, None)
        yield Row("large frames", "16 MiB and a quote", words, b'{"' + b"x" * (16 * MIB - 2), 2, "fault F1 $\n")
        yield Row("large frames", "a member of nearly 16 MiB", words, TEXT[:-1] + b',"' + b"y" * (15 * MIB) + b'":0}', 2, f"fault F2 $.{'y' * (15 * MIB)}\n")
    for words in submissions:
        yield Row("large submissions", "32 MiB of spaces", words, padded(b"", 32 * MIB), 2, "fault G10 $\n")
        yield Row("large submissions", "32 MiB and one", words, padded(COMPILED, 32 * MIB + 1), 2, "fault G1 Input $\n")
        if words != "audit":
            yield Row("large submissions", "32 MiB", words, padded(COMPILED, 32 * MIB), 0, {"check": "accepted 6 nodes\n", "exec": READ}.get(words))
        else:
            text = trace(EVENTS)
            yield Row("large submissions", "32 MiB", words, padded(COMPILED, 32 * MIB - 1 - len(text)) + b"\n" + text, 0, f"run 8 events\n{READ}")
            yield Row("large submissions", "32 MiB of line feeds", words, b"\n" * 32 * MIB, 2, "fault G10 $\n")
            yield Row("large submissions", "32 MiB of a trace", words, COMPILED + b"\n" + b"x" * (31 * MIB), 2, "fault A1 0\n")
    if "check" in submissions:
        size = program([], [{"size": 768 * MIB}], [])
        yield Row("large submissions", "768 MiB of memory", "check", size, 0, "accepted 0 nodes\n")
        yield Row("large submissions", "768 MiB of memory", "exec", size, 0, "")
    if flies:
        yield Row("large frames", "16 MiB and one", "flight", padded(TEXT, 16 * MIB + 1), 2, "fault F4 Input $\n")
        yield Row("large frames", "16 MiB of line feeds and one", "flight", b"\n" * (16 * MIB + 1), 2, "fault F4 Input $\n")
        yield Row("large frames", "16 MiB of line feeds", "flight", b"\n" * 16 * MIB, 2, "fault L1\n")
        yield Row("large frames", "16 MiB", "flight", padded(TEXT, 16 * MIB), 0, f"frame 0\nexport b 16\n{BYTES}\n")
    both = 4096 * 4096
    yield Row("large frames", "an image of 16 MiB", "run --workers 4", image(4096, 4096), 0, "kept 0 culled 1\nculled p\n")
    yield Row("large frames", "a buffer of 16 MiB", "meaning", buffer(both).replace(b'"size":16', b'"size":%d' % both), 0, None)


# Inputs that take long.


def hard_rows(program, submissions):
    seen = packed(generated(program))
    for words in ("compile", "compile --tight", "bound", "place", "auto", "auto --cost", "run --workers 4 --tend 2", "run --tight"):
        yield Row("hard", "256 passes", words, seen, 0, None)
    names = [f"b{k}" for k in range(256)]
    ops = [{**FILL, "dst": name, "size": 4} for name in names]
    wide = {**A, "resources": [{"name": name, "buffer": 4, "import": "00000000"} for name in names], "exports": names[:32]}
    reads = [{"name": f"p{k}", "queue": "g", "writes": [{"change": name} for name in names], "ops": [ops[k]]} for k in range(256)]
    for words in ("cull", "place", "bound", "compile", "meaning", "auto --cost"):
        yield Row("hard", "256 passes that change 256 buffers", words, packed({**wide, "passes": reads}), 0, None)
    four = [{"name": f"q{k}", "family": "graphics"} for k in range(4)]
    chain = [
        {"name": f"p{k}", "queue": f"q{k % 4}", "reads": ["b"], "writes": [{"new": f"c{k}"}], "side_effect": True}
        | {"ops": [{"op": "copy_buffer", "src": "b", "dst": f"c{k}", "src_offset": 0, "dst_offset": 0, "size": 4}]}
        for k in range(255)
    ]
    shared = [{"name": "b", "buffer": 4, "import": "01020304", "sharing": "concurrent"}, *({"name": f"c{k}", "buffer": 4} for k in range(255))]
    text = packed({**A, "format": 2, "queues": four, "resources": shared, "passes": chain, "exports": ["c254"]})
    for words in ("compile", "compile --tight", "bound", "auto --cost", "run --workers 16"):
        yield Row("hard", "255 readers on four queues", words, text, 0, None)
    if "audit" in submissions:
        plain = program_of_memory(65_536)
        moves = [f"{('fill', 'writeback', 'drop')[k % 3]} {k % 8} 0 {k} 1" for k in range(65_536)]
        yield Row("hard", "65,536 moves with ends of their own", "audit", plain + b"\n" + trace(moves), 0, "run 65536 events\n")


def program_of_memory(size):
    return program([], [{"size": size}])


# Ends: no reader, no room, no file.


def ended(program, words, how):
    """The status of a run whose input or output is of this kind, and what it printed where that is seen."""
    quiet = {"capture_output": False, "stderr": DEVNULL}
    if how == "no room":
        with open("/dev/full", "wb") as full:
            return answer(program, words, TEXT, stdout=full, **quiet)[0], b""
    if how == "no reader":
        into, out = os.pipe()
        os.close(into)
        status = answer(program, words, TEXT, stdout=out, **quiet)[0]
        os.close(out)
        return status, b""
    if how == "output is closed":
        return answer("sh", ["-c", 'exec "$0" "$@" >&-', program, *words.split()], TEXT)
    if how == "input is closed":
        status, printed = answer("sh", ["-c", 'exec "$0" "$@" <&-', program, *words.split()])
        return status, b"" if status == 2 else printed
    if how == "output for reading":
        with open("/dev/null", "rb") as file:
            return answer(program, words, TEXT, stdout=file, **quiet)[0], b""
    source = os.open(*{"input is a folder": ("/", os.O_RDONLY), "input for writing": ("/dev/null", os.O_WRONLY)}[how])
    found = answer(program, words, None, stdin=source, stdout=PIPE, **quiet)
    os.close(source)
    return found


def end_rows(commands):
    for words in commands:
        for how, status in (("no room", 5), ("no reader", 5), ("output for reading", 5), ("input is a folder", 4), ("input for writing", 4)):
            reads = not words.startswith("gen")
            yield words, how, [status if reads or status == 5 else 0]
        # Where the language's runtime puts an empty file in the place of an end that is closed, that is no failure.
        yield words, "output is closed", [5, 0, 1, 2]
        yield words, "input is closed", [4, 2] if reads else [0]
    yield "no", "no room", [5]
    yield "no", "input is a folder", [3]


# Little room: the address space is limited to so many KiB.

ROOMS = (20_000, 50_000, 100_000, 200_000, 400_000)


def short_rows(frames, submissions):
    size = 16 * MIB
    names = [f"b{k}" for k in range(8)]
    ops = [{**FILL, "dst": name, "size": size} for name in names]
    large = {**A, "resources": [{"name": name, "buffer": size} for name in names], "exports": names[:2]}
    text = packed({**large, "passes": [{**ONE, "writes": [{"new": name} for name in names], "ops": ops}]})
    yield from ((words, text) for words in frames)
    yield from ((words, padded(TEXT, 16 * MIB)) for words in ("run", "migrate") if words in frames)
    whole = program([], [{"size": 768 * MIB}], [])
    yield from ((words, whole) for words in submissions if words != "audit")
    if "audit" in submissions:
        yield "audit", whole + b"\nevents 0\n"
        yield "audit", padded(COMPILED, 31 * MIB) + b"\n" + trace(EVENTS)


# All of them.


def is_said(status, told):
    """One line is said of words that are no command line, and of a file that is not read; nothing of another answer."""
    line = re.fullmatch(rb"framec: [^\n]+\n", told)
    return bool(line) if status == 3 else not told or status == 4 and bool(line)


class Rows(Tally):
    def __init__(self, options):
        super().__init__("hostile", "rows")
        self.program, self.other, self.only = options.program, options.other, options.only
        self.counts = collections.Counter()

    def counted(self, kind):
        self.look()
        with self.lock:
            self.counts[kind] += 1

    def knows(self, words):
        return answer(self.program, words)[0] != 3

    def fails(self, kind, name, words, wanted, found):
        self.tell(f"{kind}, {name}: {words}: wanted {wanted!r}, found {found!r}"[:900])

    def row(self, row):
        status, printed, told = ran(self.program, row.words, row.text)
        wanted = row.status, row.printed.encode() if row.printed is not None else printed
        if row.printed is None and self.other:
            wanted = answer(self.other, row.words, row.text)
        self.counted(row.kind)
        if "--trace" in row.words and row.printed is None:
            # Which of the same events comes first is the workers' choice.
            printed, wanted = sorted(printed.split(b"\n")), (wanted[0], sorted(wanted[1].split(b"\n")))
        if (status, printed) != wanted or not is_said(status, told):
            self.fails(row.kind, row.name, str(row.words)[:200], wanted, (status, printed, told))

    def end(self, row):
        words, how, statuses = row
        found = ended(self.program, words, how)
        self.counted("ends")
        if found[0] not in statuses or found[1] and found[0] not in (0, 3):
            self.fails("ends", how, words, statuses, found)

    def short(self, words, text):
        """In each room the answer is what it is without a limit, or status 6 and no text."""
        whole = ran(self.program, words, text)
        for room in ROOMS:
            found = ran("sh", ["-c", f'ulimit -v {room} && exec "$0" "$@"', self.program, *words.split()], text)
            self.counted("little room, status 6" if found[0] == 6 else "little room, as without")
            if found not in (whole, (6, b"", b"")):
                self.fails("little room", f"{room} KiB", words, "status 6, or as without", (found[0], found[1][:60], found[2][:200]))

    def written(self, made, folder):
        """One row of each input, as a case: its words, its input and its text."""
        inputs = {}
        for row in made:
            inputs.setdefault((row.kind, row.name), []).append(row)
        for number, rows in enumerate(inputs.values()):
            row = rows[number % len(rows)]
            words = row.words.split() if isinstance(row.words, str) else row.words
            if any(not isinstance(word, str) or "\n" in word or word == "" for word in words) or len(row.text) > 2 * MIB:
                continue
            base = os.path.join(folder, f"{number:04}_{row.status}")
            printed = row.printed.encode() if row.printed is not None else answer(self.program, words, row.text)[1]
            for suffix, text in (("", row.text), (".args", "".join(f"{word}\n" for word in words).encode()), (".stdout", printed)):
                with open(base + suffix, "wb") as file:
                    file.write(text)
            self.counted(row.kind)

    def wanted(self, row):
        return not self.only or self.only in f"{row.kind}, {row.name}, {row.words}"


def look_at(rows, options):
    """All rows, or what else the options say."""
    known = {words: rows.knows(words) for words in (*FRAMES, *SUBMISSIONS, "flight")}
    for words, is_known in known.items():
        if not is_known:
            left_out(f"{words}, which the program does not know")
    frames, submissions = ([words for words in all if known[words]] for all in (FRAMES, SUBMISSIONS))
    flies = known["flight"]
    made = [*frame_rows(frames), *submission_rows(submissions), *(flight_rows() if flies else ()), *word_rows()]
    made = [row for row in made if flies or not str(row.words).startswith("flight")]
    if options.cases:
        rows.written(filter(rows.wanted, made), options.cases)
        return
    by_threads(rows.row, filter(rows.wanted, made), options.jobs)
    if not options.only:
        reading = [*frames, *submissions, *(["flight"] if flies else []), "gen --number 1", "gen --number 1 --passes 3 --summary"]
        by_threads(rows.end, end_rows(reading), options.jobs)
    if options.large and not options.only:
        for words, text in short_rows(frames, submissions):
            rows.short(words, text)
    if options.large:
        for row in filter(rows.wanted, [*large_rows(frames, submissions, flies), *hard_rows(options.program, submissions)]):
            rows.row(row)


def main():
    parser = Arguments(__doc__, other="may", jobs=4)
    parser.add_argument("--only", metavar="WORD")
    parser.add_argument("--large", action="store_true")
    parser.add_argument("--cases", metavar="FOLDER")
    options = parser.parse_args()
    with Rows(options) as rows:
        look_at(rows, options)
        for kind, count in rows.counts.items():
            print(f"{kind}: {count}")


if __name__ == "__main__":
    main()
