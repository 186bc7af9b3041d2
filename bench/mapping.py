#!/usr/bin/env python3
"""mapping.py BYTES [OUT]: a mapping of the usual shape of at least so many bytes, the same for the same number.

Classes of packages, with 10 fields and 20 methods each. Types are primitive, of the platform or of the classes; most
methods have a range of lines. Names of members come from a list of words, new names are short.
"""
import random
import string
import sys

VERBS = 'get set is has add remove find make put read write load save open close check apply update reset start stop on do'.split()
NOUNS = ('Name Value Item Count Index Key Node List Map Path File Text Line Size State Type Code Data Event Handler View '
         'Model Group User Page Image Color Width Height Time Date Cache Buffer Stream Config Option Result Error Token').split()
PLACES = 'com org net io app core util ui data model view net.http db service api impl internal base common widget'.split()
ENDS = 'Activity Fragment Adapter Manager Factory Helper Provider Listener Builder Service Handler Impl Utils Task'.split()
PLATFORM = ('java.lang.String java.lang.Object java.util.List java.util.Map java.lang.Throwable java.io.InputStream '
            'java.lang.StringBuilder java.lang.Runnable java.util.Iterator java.io.File').split()
PRIMITIVE = 'int int int boolean boolean long byte char int[] byte[] java.lang.String[]'.split()


def short(number, letters=string.ascii_lowercase):
    name = letters[number % 26]
    number //= 26
    while number:
        number -= 1
        name = letters[number % 26] + name
        number //= 26
    return name


def mapping(size):
    rng = random.Random(size)
    packages = ['.'.join(rng.sample(PLACES, rng.randint(3, 5))) for _ in range(max(1, size // 40000))]
    classes = []
    for k in range(max(1, size // 1650 + 1)):
        name = rng.choice(NOUNS) + rng.choice(NOUNS) + rng.choice(ENDS)
        classes.append(f'{rng.choice(packages)}.{name}{k}')
    names = [verb + noun + rng.choice(NOUNS) for verb in VERBS for noun in NOUNS]

    def type_name():
        kind = rng.random()
        if kind < 0.45:
            return rng.choice(PRIMITIVE)
        return rng.choice(PLATFORM) if kind < 0.75 else rng.choice(classes)

    written = 0
    for k, old in enumerate(classes):
        package = old.rsplit('.', 1)[0]
        lines = [f'{old} -> {package}.{short(k)}:']
        for f in range(10):
            name = rng.choice(NOUNS).lower() + rng.choice(NOUNS)
            if rng.random() < 0.2:
                name += str(k)
            lines.append(f'    {type_name()} {name} -> {short(f)}')
        line = 10
        for m in range(20):
            name = rng.choice(names)
            if rng.random() < 0.2:
                name += str(k)
            args = ','.join(type_name() for _ in range(rng.choice((0, 1, 1, 2, 3))))
            kept = f'{line}:{line + rng.randint(0, 30)}:' if rng.random() < 0.8 else ''
            line += 35
            result = 'void' if rng.random() < 0.4 else type_name()
            lines.append(f'    {kept}{result} {name}({args}) -> {short(m)}')
        text = '\n'.join(lines) + '\n'
        written += len(text)
        yield text
        if written >= size:
            return


def main(words):
    out = open(words[1], 'w') if len(words) > 1 else sys.stdout
    for text in mapping(int(words[0])):
        out.write(text)


main(sys.argv[1:])
