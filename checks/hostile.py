"""Writes files of one form over and over to a folder, most of them of the greatest size, and prints a line for each: its name, the
stack in KB that it gets, and the line that it is answered with."""
import sys

SIZE = 4194304
# A main that makes the file a program.
MAIN = "int main(void){;return 0;}\n"
NO_ALARM = "no alarm"


def filled(front, piece, back, size):
    """The piece over and over between two texts, as often as fits."""
    return front + piece * ((size - len(front) - len(back)) // len(piece)) + back


def numbered(piece, most):
    """Pieces with the numbers from 0 up, as many as fit, and how many they are."""
    text, size, number = [], 0, 0
    while True:
        next_piece = piece.replace("%", str(number))
        size += len(next_piece)
        if size > most:
            return "".join(text), number
        text.append(next_piece)
        number += 1


# Types with many suffixes, wherever a declarator stands: the chain of a type is long, and nothing is done with it.
def suffixes(front, back):
    return lambda size: (filled(front, "[1]", back, size), NO_ALARM)


def faulty(size):
    """One that ends in a fault."""
    text = filled("int a", "[1]", " 1;", size)
    return text, f"1:{len(text) - 1}: refused: syntax"


def told(size):
    """One that is told."""
    front, back = "int main(void){return (int", ")0;}"
    text = filled(front, "[1]", back, size)
    ty = "array of 1 " * ((len(text) - len(front) - len(back)) // 3) + "int"
    return text, f"1:23: refused: no rule for cast on {ty} and int"


def typedefs(size):
    """Many names of types."""
    text, _ = numbered("typedef int T%;\n", size - len(MAIN))
    return text + MAIN, NO_ALARM


def uses(size):
    """Many uses of names of types, which define objects that are too many bytes together; it takes some 600,000 bytes."""
    front, count = numbered("typedef int T%;\n", size // 2)
    text, _ = numbered(f"T{count - 1} x%;\n", size // 2)
    return front + text, f"{count + 16385}:{len(f'T{count - 1} ') + 1}: refused: objects of 65540 bytes together"


def externs(size):
    """Many uses of names of types, which define no object."""
    front, count = numbered("typedef int T%;\n", size // 2)
    text, _ = numbered(f"extern T{count - 1} x%;\n", size // 2 - len(MAIN))
    return front + text + MAIN, NO_ALARM


def chained(size):
    """Names of types, each of which stands for the one before."""
    chain = ["typedef int T0;\n"]
    length, number = len(chain[0]), 1
    while length < size - 64:
        chain.append(f"typedef T{number - 1} T{number};\n")
        length, number = length + len(chain[-1]), number + 1
    return "".join(chain) + MAIN, NO_ALARM


def functions(size):
    """Many functions that call nothing, and that nothing calls: all of them are lowered, and none is walked."""
    text, _ = numbered("int f%(void){if(1+2*3<4)return 5;else while(6)break;return 7-8;}\n", size - len(MAIN))
    return text + MAIN, NO_ALARM


def calls(size):
    """Functions that each call the one before."""
    first = "int f0(void){return 0;}\n"
    chain, count = calling(len(first) + 64, size)
    return first + chain + f"int main(void){{return f{count}();}}\n", f"{count + 2}:23: refused: calls deeper than 64"


def circle(size):
    """Such functions, of which the first calls the last."""
    first = "int f0(void){return 0;}\n"
    chain, count = calling(len(first) + 64, size)
    last = f"int f{count}(void);int f0(void){{return f{count}();}}\n"
    begins = len(f"int f{count}(void);int f0(void){{return ") + 1
    ring = [f"f{number - 1}@{number + 1}:{len(f'int f{number}(void){{return ') + 1}" for number in range(count, 0, -1)]
    ring = " > ".join(ring + [f"f{count}@1:{begins}"])
    return last + chain + MAIN, f"{count + 1}:{len(f'int f{count}(void){{return ') + 1}: refused: recursion {ring}"


def nodes(size):
    """A body of many nodes that is walked. x and each element are 0 throughout, so nothing goes wrong."""
    return filled("int x,a[8];int main(void){", "a[x]=x+a[x]*2;", "}", size), NO_ALARM


def nested(piece):
    """An expression that is nested as deep as one may be. No number in it is far from 0."""
    return lambda size: (filled("int main(void){return ", piece, "1;}", size), NO_ALARM)


def tests(functions, depth):
    """So many functions, each of which calls the one before inside so many tests, one in the other."""
    opened, closed = "if(x){" * depth, "}" * depth

    def text(number):
        inside = f"y=f{number - 1}(x);" if number else "y=1;"
        return f"static int f{number}(int x){{int y=0;{opened}{inside}{closed}return y;}}\n"

    text_of_all = "".join(map(text, range(functions)))
    return lambda size: (f"{text_of_all}int main(void){{return f{functions - 1}(__any_int());}}\n", NO_ALARM)


def ordered(size):
    """Many nodes that keep the order rule, and at their end one that does not."""
    back = "x=x++ +1;}"
    text = filled("int x,a[8];int main(void){", "a[x]=x+a[x]*2;", back, size)
    return text, f"1:{len(text) - len(back) + 2}: refused: unsequenced"


def calling(kept, most):
    """Functions from the number 1 up, each of which calls the one before, as many as fit beside so many bytes, and their number."""
    pieces, size, number = [], kept, 1
    while True:
        piece = f"int f{number}(void){{return f{number - 1}()+1;}}\n"
        size += len(piece)
        if size > most:
            return "".join(pieces), number - 1
        pieces.append(piece)
        number += 1


# Each file, the stack in KB that it gets, its greatest size, and what makes it of that size.
FAMILIES = (
    ("object", 256, SIZE, suffixes("int a", ";" + MAIN)),
    ("pointed", 256, SIZE, suffixes("int (*a)", ";" + MAIN)),
    ("parameter", 256, SIZE, suffixes("int f(int a", ");" + MAIN)),
    ("cast", 256, SIZE, suffixes("int main(void){(void)(int(*)", ")0;return 0;}")),
    ("sizeof", 256, SIZE, suffixes("int main(void){return sizeof(int", ");}")),
    ("member", 256, SIZE, suffixes("struct S{int a", ";};" + MAIN)),
    ("typedef", 256, SIZE, suffixes("typedef int T", ";" + MAIN)),
    ("faulty", 256, SIZE, faulty),
    ("told", 256, SIZE, told),
    ("typedefs", 8192, SIZE, typedefs),
    ("uses", 8192, SIZE, uses),
    ("externs", 8192, SIZE, externs),
    ("chained", 8192, SIZE, chained),
    ("functions", 256, SIZE, functions),
    ("calls", 256, SIZE, calls),
    ("circle", 256, SIZE, circle),
    ("ordered", 256, SIZE // 2, ordered),
    ("nodes", 8192, SIZE // 64, nodes),
    ("signs", 8192, 25 + 199 * 2, nested("- ")),
    ("sums", 8192, 25 + 199 * 2, nested("1+")),
    ("tests", 8192, SIZE, tests(1, 90)),
    ("called", 32768, SIZE, tests(10, 90)),
)


def main(folder):
    for name, stack, size, family in FAMILIES:
        text, answer = family(size)
        assert len(text) <= size
        with open(f"{folder}/{name}.c", "w", encoding="ascii") as file:
            file.write(text)
        print(f"{name}.c {stack} {answer if answer == NO_ALARM else f'{name}.c:{answer}'}")


main(sys.argv[1])
