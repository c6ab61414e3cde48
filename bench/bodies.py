"""Writes the bodies and tables that measure.sh reads, into the folder that is given."""
import pathlib
import sys

folder = pathlib.Path(sys.argv[1])


def write(name, text):
    (folder / name).write_text(text)


write("long.table", "structure S\nmember a long\n")
write("lists.table", "list Longs long\nlist Strings string\nstructure S\nmember l Longs\nmember s Strings\n")
write(
    "points.table",
    "list Points Point\nstructure S\nmember points Points\n"
    "structure Point\nmember id long\nmember width long\nmember height long\nmember depth long\n",
)
write("many.table", "structure S\n" + "".join(f"member member{n} long\n" for n in range(2000)))

# 200,000 objects as the values of unknown members, some 16 MB
item = '{"identifier":%d,"name":"object","tags":["x","y"],"nested":{"k":[1,2.5,null,true]}}'
body = "{" + ",".join('"u%d":%s' % (n, item % n) for n in range(200_000))
body = body[: 16_777_216 - 64]
body = body[: body.rindex(',"u')] + ',"a":7}'
write("unknown_members.json", body)

# one structure with 2,000 members, over and over: the last of equal members counts
members = ",".join(f'"member{n}":{n * 7919}' for n in range(2000))
turns = 8_000_000 // (len(members) + 1)
write("many_members.json", "{" + ",".join([members] * turns) + "}")

# a list of 200,000 structures of four integers
point = '{"id":%d,"width":%d,"height":%d,"depth":%d}'
points = [point % (n, n * 37 % 1000, n * 91 % 10_000, -n % 777) for n in range(200_000)]
write("points.json", '{"points":[' + ",".join(points) + "]}")

count, size, numbers = 0, 0, []
while size < 8_000_000:
    numbers.append(str(count * 37 % 1000))
    size += len(numbers[-1]) + 1
    count += 1
write("integers.json", '{"l":[' + ",".join(numbers) + "]}")

strings = ['"string number %d"' % n for n in range(380_000)]
write("strings.json", '{"s":[' + ",".join(strings) + "]}")

# long strings with few escapes, and short ones of which every third character has one
line = "The quick brown fox jumps over the lazy dog. " * 20
long_strings = ['"%s\\n%s"' % (line, line) for _ in range(4_400)]
write("long_strings.json", '{"s":[' + ",".join(long_strings) + "]}")
escapes = ['"\\"a%d\\\\b\\u00e9\\n"' % (n % 10) for n in range(420_000)]
write("escapes.json", '{"s":[' + ",".join(escapes) + "]}")


def head(major, argument):
    """The shortest head of CBOR."""
    for width, info in ((1, 24), (2, 25), (4, 26), (8, 27)):
        if argument < 24:
            return bytes([major << 5 | argument])
        if argument < 1 << (8 * width):
            return bytes([major << 5 | info]) + argument.to_bytes(width, "big")


def member(name, elements):
    """A structure with one member, a list of indefinite length."""
    return b"\xbf" + head(3, len(name)) + name.encode() + b"\x9f" + b"".join(elements) + b"\xff\xff"


# lists of some 8 MB, and of 16 MiB
longs = [head(0, count * 37 % 1000) for count in range(3_200_000)]
(folder / "integers.cbor").write_bytes(member("l", longs))
texts = [b"string number %d" % n for n in range(400_000)]
(folder / "strings.cbor").write_bytes(member("s", [head(3, len(text)) + text for text in texts]))
(folder / "small.cbor").write_bytes(member("l", [bytes([n % 24]) for n in range(16_777_216 - 6)]))
