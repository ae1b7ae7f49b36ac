#!/usr/bin/env python3
"""prints: the lines of `piquegravel compare` for the files of two folders.

usage: tools/prints.py OLD_FOLDER NEW_FOLDER
Files are numbered from 1 in the order of their names over both folders. A fingerprint is the first 64 bits of the
SHA-256 of a piece of 64 KiB. The store takes any 64-bit fingerprint: this is only one way to make them."""
import hashlib
import os
import sys

PIECE = 65536


def line(word, number, path):
    data = open(path, "rb").read()
    prints = [int.from_bytes(hashlib.sha256(data[i:i + PIECE]).digest()[:8], "big") for i in range(0, len(data), PIECE)]
    return " ".join([word, str(number), str(len(data))] + [str(p) for p in prints])


def main():
    old, new = sys.argv[1:3]
    names = sorted(set(os.listdir(old)) | set(os.listdir(new)))
    for word, folder in (("was", old), ("now", new)):
        for number, name in enumerate(names, 1):
            if os.path.exists(os.path.join(folder, name)):
                print(line(word, number, os.path.join(folder, name)))


main()
