#!/usr/bin/env python3
"""Compares the calls that docs/calls.txt lists with those of the sources.

    python3 checks/typed_calls.py

Silent with status 0 where both are the same; otherwise it names each call that stands in one place alone and ends
with 1.
"""
import re
import sys
from pathlib import Path

TOP = Path(__file__).resolve().parent.parent
LIST = "docs/calls.txt"
POLICIES = ["checked", "overflowing", "wrapping", "saturating", "strict", "unwrapped"]


def parts():
    """The two parts of the list: of the calls with a policy, and of the others."""
    _, _, text = (TOP / LIST).read_text().partition("every policy:\n\n")
    with_policy, _, others = text.partition("\nCalls without a policy")
    return with_policy, others


def source(crate):
    return "\n".join(path.read_text() for path in sorted((TOP / "crates" / crate / "src").glob("*.rt")))


def blocks(text, head):
    """The bodies of the blocks that begin with a line of that form and end with a brace at its start."""
    return [match.group(2) for match in re.finditer(rf"^({head}).*?\{{\n(.*?)^\}}", text, re.M | re.S)]


def listed_calls():
    """The calls with a policy that are listed, with their parameters."""
    calls = {}
    policies = POLICIES
    for line in parts()[0].splitlines():
        if line.endswith(":"):
            policies = line[:-1].split(", ")
        names, _, parameters = line.partition("  ")
        for name in re.findall(r"(\w+)(?:,|$)", names) if not line.endswith(":") else []:
            for policy in policies:
                calls[f"{policy}_{name}"] = parameters.strip()
    return calls


def written_calls():
    """The calls of the traits of policies, with their parameters."""
    calls = {}
    for crate in ["fixed_policy", "fixed_strict"]:
        for body in blocks(source(crate), "pub trait"):
            for name, parameters in re.findall(r"^    fn (\w+)\((.*?)\)(?: ->|\n)", body, re.M | re.S):
                words = " ".join(parameters.split()).rstrip(",")
                calls[name] = re.sub(r"^(&mut )?self(, )?", "", words)
    return calls


def listed_numbers():
    """The names on the indented lines."""
    lines = [line for line in parts()[1].splitlines() if line.startswith("    ")]
    return {name for line in lines for name in re.findall(r"\w+", line)}


def written_numbers():
    """The public calls of `Fixed`, its constants, and what stands in `Held` and `Default`."""
    text = source("fixed_num")
    inherent = "\n".join(blocks(text, r"impl<[^\n]*> Fixed<"))
    traits = "\n".join(blocks(text, "pub trait (?:Constants|Held)") + blocks(text, r"impl<[^\n]*> Default for Fixed<"))
    return set(re.findall(r"^    pub (?:const )?fn (\w+)", inherent, re.M)) | set(
        re.findall(r"^    (?:fn|const) (\w+)", traits, re.M))


def differences(listed, written):
    lines = [f"{name}: in {LIST} alone" for name in sorted(set(listed) - set(written))]
    return lines + [f"{name}: in the source alone" for name in sorted(set(written) - set(listed))]


def main():
    listed, written = listed_calls(), written_calls()
    wrong = differences(listed, written)
    wrong += [f"{name}: takes ({written[name]}), and ({listed[name]}) in {LIST}"
              for name in sorted(set(listed) & set(written)) if listed[name] != written[name]]
    wrong += differences(listed_numbers(), written_numbers())
    if not listed or not listed_numbers():
        wrong.append(f"{LIST} lists no calls")
    print("\n".join(wrong), end="\n" if wrong else "")
    return 1 if wrong else 0


if __name__ == "__main__":
    sys.exit(main())
