"""Writes the cases of the program `trials` and what it must print: crates/trials/data/cases.txt and crates/trials/stdout.

A case is a line `UNIT|LID|QUOTA|WORDS|ALLOWANCES|INPUT|SOURCE`: the source runs over a quota over a holder over a word tape of
so many words. What it must print is computed by reference.py.
"""
import os
import random

import reference

HERE = os.path.dirname(os.path.abspath(__file__))
UNITS = {"strict": reference.strict, "wrapping": reference.wrapping, "clamped": reference.clamped}
HEAD = "#include <stdio.h> int main(){"
END = "return 0;}"


def program(declared, statements):
    return HEAD + ("int " + ",".join(declared) + ";" if declared else "") + statements + END


def printing(expression):
    return program(["x"], f'x={expression};printf("%d",x);')


def outcome(unit, lid, quota, words, allowances, waiting, source):
    ticks = min(lid, sum(allowances))
    pinch = (0, 2) if quota <= words else (2, 1)
    try:
        written, steps, status, fault, left, cells = reference.run(
            source.encode(), UNITS[unit], lid, ticks, waiting, min(quota, words), pinch)
    except reference.Refused as refused:
        return f"refused {refused.number} at {refused.place}"
    text = f"{steps} {status}"
    if fault:
        text += f" {fault[0]} {fault[1]}"
        if fault[2]:
            text += f" {fault[2][0]} {fault[2][1]}"
    contents = [f"{n}={cells[n]}" for n in sorted(cells)]
    return text + "".join(" ;" + "".join(f" {x}" for x in xs) for xs in (written, left, contents))


class Writer:
    """Random statements over the names a to e."""

    def __init__(self, seed):
        self.random = random.Random(seed)

    def blank(self):
        return self.random.choice(["", "", "", " ", "\t"])

    def expression(self, depth):
        r = self.random
        text = r.choice(["", "", "", "-", "+"]) + self.term(depth)
        for _ in range(r.choice([0, 0, 1, 2])):
            text += self.blank() + r.choice("+-") + self.blank() + self.term(depth)
        return text

    def term(self, depth):
        r = self.random
        text = self.factor(depth)
        for _ in range(r.choice([0, 0, 0, 1])):
            text += r.choice("**/%") + self.factor(depth)
        return text

    def factor(self, depth):
        r = self.random
        if depth > 0 and r.random() < 0.2:
            return "(" + self.expression(depth - 1) + ")"
        if r.random() < 0.5:
            return r.choice("abcde")
        return str(r.choice([0, 1, 2, 3, 7, 10, 1000, 40000, 1073741823]))

    def condition(self):
        return "(" + self.expression(1) + self.random.choice(["==", "!=", "<", ">", "<=", ">="]) + self.expression(1) + ")"

    def statement(self, depth):
        r = self.random
        shape = r.random()
        if depth == 0 or shape < 0.45:
            if shape < 0.1:
                return f'scanf("%d",&{r.choice("abcde")});'
            if shape < 0.2:
                return f'printf("%d",{r.choice("abcde")});'
            return r.choice("abcde") + "=" + self.expression(2) + ";"
        if shape < 0.6:
            return "if" + self.condition() + self.statement(depth - 1)
        if shape < 0.75:
            return "if" + self.condition() + self.statement(depth - 1) + " else " + self.statement(depth - 1)
        if shape < 0.9:
            return "while" + self.condition() + self.statement(depth - 1)
        return "{" + "".join(self.statement(depth - 1) for _ in range(r.randint(1, 3))) + "}"

    def case(self):
        r = self.random
        body = "".join(f"{x}={r.randint(0, 9)};" for x in "abcde" if r.random() < 0.8)
        body += "".join(self.statement(3) for _ in range(r.randint(1, 5)))
        waiting = [r.choice([0, 1, -1, 5, 32768, -32769, 2147483647, -2147483648]) for _ in range(r.randint(0, 4))]
        lid = r.choice([0, 1, 17, 100, 400, 400])
        allowances = [r.choice([0, 1, 7, 50, 300, 4294967295]) for _ in range(r.randint(0, 4))]
        return (r.choice(list(UNITS)), lid, r.randint(0, 4), r.randint(0, 40), allowances, waiting, program(list("abcde"), body))


def worked():
    counting = program(["t", "c"], 'scanf("%d",&t);c=0;while(c<t)c=c+2;printf("%d",c);')
    many = [1000000]
    yield ("strict", 0, 9, 9, [], [], program([], ""))
    yield ("strict", 0, 9, 9, [0, 5], [], program([], ""))
    for allowances in ([25], [26], [1] * 26, [20, 0, 6, 9], [4294967295, 4294967295]):
        yield ("strict", 1000000, 9, 9, allowances, [3], counting)
    yield ("strict", 25, 9, 9, many, [3], counting)
    yield ("strict", 26, 9, 9, many, [3], counting)
    yield ("strict", 1000000, 9, 9, many, [], counting)
    yield ("strict", 0, 9, 9, many, [], counting)
    for expression in ["7-2-3", "-7/2", "(0-7)/2", "(0-7)%2", "1073741823*2+2", "-1073741823-1073741823-2", "7/(3-3)", "7%(3-3)",
                       "(0-1073741823*2-2)%(0-1)", "(0-1073741823-1073741823-2)/(0-1)", "1073741824", "00", "x", "a", "--1", "1*-1", "(1", "1)",
                       "(" * 32 + "1" + ")" * 32, "(" * 33 + "1" + ")" * 33, "1+(2+(3+(4+(5+6*(7-8)))))"]:
        for unit in UNITS:
            yield (unit, 1000, 9, 9, many, [], printing(expression))
    yield ("strict", 1000, 3, 9, many, [], program(["x"], 'x=1;while(x<9){printf("%d",x);x=x+1;}'))
    yield ("strict", 1000, 9, 3, many, [], program(["x"], 'x=1;while(x<9){printf("%d",x);x=x+1;}'))
    yield ("strict", 1000, 3, 3, many, [], program(["x"], 'x=1;while(x<9){printf("%d",x);x=x+1;}'))
    yield ("strict", 5000, 40, 40, many, [], program(["x"], 'x=1;while(x<=33){printf("%d",x);x=x+1;}'))
    yield ("clamped", 1000, 9, 9, many, [40000, -40000], program(["x", "y"], 'scanf("%d",&x);scanf("%d",&y);printf("%d",x);printf("%d",y);'))
    dangling = 'x=1;y=0;if(x==1)if(x==2)y=1;else y=2;printf("%d",y);'
    yield ("strict", 1000, 9, 9, many, [], program(["x", "y"], dangling))
    loop_else = 's=0;i=0;while(i<9){if(i%2==0)s=s+i;else s=s-1;i=i+1;}printf("%d",s);'
    yield ("strict", 1000, 9, 9, many, [], program(["s", "i"], loop_else))
    for text in ["", HEAD, HEAD + "else", program(["x", "x"], ""), program(["x"], "y=1;"), program([], "x=1;"), program(["x"], "{}"),
                 program(["x"], ";"), program(["x"], "x=1;" + "{" * 31 + "x=2;" + "}" * 31), program(["x"], "{" * 32 + "x=2;" + "}" * 32),
                 program([f"n{k}" for k in range(64)], "n63=5;"), program([f"n{k}" for k in range(65)], ""),
                 program(["abcdefghijklmnop"], ""), program(["abcdefghijklmnopq"], ""), program(["x"], "x=1;" * 2048), program(["x"], "x=1;" * 2049),
                 HEAD + "return 1;}", program([], "") + ";", "!" + program([], ""), "#include<stdio.h>int main(){return 0;}"]:
        yield ("strict", 10000, 9, 9, many, [], text)


def main():
    cases = list(worked()) + [Writer(seed).case() for seed in range(240)]
    lines, answers = [], []
    for unit, lid, quota, words, allowances, waiting, source in cases:
        numbers = [" ".join(str(x) for x in xs) for xs in (allowances, waiting)]
        lines.append("|".join([unit, str(lid), str(quota), str(words)] + numbers + [source]))
        answers.append(outcome(unit, lid, quota, words, allowances, waiting, source))
    crate = os.path.join(HERE, "..", "crates", "trials")
    os.makedirs(os.path.join(crate, "data"), exist_ok=True)
    with open(os.path.join(crate, "data", "cases.txt"), "w", newline="\n") as f:
        f.write("".join(line + "\n" for line in lines))
    with open(os.path.join(crate, "stdout"), "w", newline="\n") as f:
        f.write("".join(answer + "\n" for answer in answers))


if __name__ == "__main__":
    main()
