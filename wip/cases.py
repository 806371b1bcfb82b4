#!/usr/bin/env python3
"""Writes a source in which every statement stands in every other, two deep.

  cases.py > nested.c0
  translate.py nested.c0 > stdout
"""
SIMPLE = ['a=b-1;', 'scanf("%d",&b);', 'printf("%d",c);']
AROUND = [
    ('if(a<b)', ''),
    ('if(a==b)', 'else c=a*2;'),
    ('if(b!=c)b=-c;else ', ''),
    ('while(a>=c)', ''),
    ('{', 'c=1;}'),
]


def nested(depth):
    yield from SIMPLE
    if depth:
        for before, after in AROUND:
            for inner in nested(depth - 1):
                yield before + inner + after


print('#include <stdio.h>\nint main()\n{int a,b,c;')
for statement in nested(2):
    print(statement)
print('return 0;}')
