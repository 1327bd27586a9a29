#!/usr/bin/env python3
"""Spells the names that Rattle makes, where proofs cite them, as today's Rattle makes them.

usage: tools/made_names.py             at the top of the repository; a second run changes nothing

The older Rattle wrote a dash for each underscore of a name of src/, and in words of its own such as overflow_add.
"""
import os
import re

from snake_names import PART, code_of, files, read

WORDS = """overflow_add overflow_sub overflow_mul overflow_shl overflow_shr overflow_cast overflow_step overflow_neg
nonzero_div nonzero_rem slice_bounds offset_bounds invariant_of type_inv in_ok in_err in_default yielded_by in_bounds
extend_from_slice copy_from_slice read_to_end write_all split_at split_first get_mut count_ones trailing_zeros
is_empty from_residual push_reserved as_bytes to_be_bytes try_from iter_mut swap_remove with_capacity as_slice as_mut_slice""".split()


def main():
    token = re.compile(rf"{PART}(?:\.{PART})*")
    names = {}
    for path in files(".rt"):
        of_crate = names.setdefault(path.split(os.sep)[1], set(WORDS))
        for line in read(path).split("\n"):
            if not line.lstrip().startswith("ghost use"):
                of_crate |= {it for it in re.findall(r"\b[A-Za-z][A-Za-z0-9]*(?:_[A-Za-z0-9]+)+\b", line.split("//")[0])}
    for path in files(".antt"):
        dashed = {it.replace("_", "-"): it for it in names[path.split(os.sep)[1]]}
        pattern = re.compile(
            r"(?<![^-.])(" + "|".join(sorted(map(re.escape, dashed), key=len, reverse=True)) + r")(?![^-.])"
        )

        def respelled(name):
            return pattern.sub(lambda found: dashed[found[1]], name)

        if os.path.basename(path) not in ("Answers.antt", "Invariants.antt", "Proof.antt"):
            continue
        text, library, lines = read(path), set(), []
        for line in text.split("\n"):
            use = re.match(r"^\s*(?:pub )?use (\S+?)\.\{(.*)\}", line)
            if use and ".proofs." in use[1] and re.search(r"\.(Goals|Given)$", use[1]):
                line = line.replace(use[2], ", ".join(respelled(it.strip()) for it in use[2].split(",")))
            elif use:
                library |= {it.strip().split(" as ")[-1] for it in use[2].split(",")}
            elif not re.match(r"^\s*(?:pub )?use ", line):
                code = code_of(line)
                line = token.sub(lambda found: found[0] if found[0] in library else respelled(found[0]), code) + line[len(code):]
            lines.append(line)
        new = "\n".join(lines)
        if new != text:
            with open(path, "w", encoding="utf-8") as f:
                f.write(new)


if __name__ == "__main__":
    main()
