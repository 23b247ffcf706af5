"""The table of a comparison."""


def listed(counts):
    return ", ".join(f"{name} {count:,}" for name, count in counts.items())


def spread(counts):
    """How many answers have fewer pairs than ours, as many, and more."""
    if not counts:
        return "no answer"
    few, many = min(min(counts), -1), max(max(counts), 4)
    parts = [(f"fewer by up to {-few}", range(few, 0)), ("as many", (0,)), ("1 more", (1,)), ("2 or 3 more", (2, 3)),
             (f"4 to {many} more", range(4, many + 1))]
    told = [(name, sum(counts[number] for number in numbers)) for name, numbers in parts]
    return ", ".join(f"{name} {count:,}" for name, count in told if count)


def write_cases(comparison):
    cases = comparison.cases
    print(f"sources: {', '.join(f'{package} {version}' for package, version in comparison.judges.versions.items())}")
    print(f"files, by kind: {listed(cases.files.kinds)}; in all {len(cases.files.list):,}, and {len(cases.texts):,} texts")
    print(f"the program: {listed(comparison.refused)}; types asked of {comparison.mapped:,} files, at {comparison.pages:,} pages")
    if cases.maps.list:
        print(f"maps, by kind: {listed(cases.maps.kinds)}; in all {len(cases.maps.list):,}, {comparison.accepted_maps:,} of them accepted")
    for (reason, linux), count in sorted(comparison.refused_maps.items()):
        print(f"maps that ours refuses: {reason}; Linux's cleanup: {linux}: {count:,}")


def write_pairs(comparison):
    for tally in comparison.of_pairs:
        print(f"pairs: {tally.judge}: beside ours at the largest chunk: {spread(tally.more)}")
        print(f"pairs: {tally.judge}: beside ours at the default chunk: {spread(tally.beside_default)}")
        for why, count in sorted(tally.none.items()):
            print(f"pairs: {tally.judge}: no answer: {why}: {count:,}")


def write(comparison, seconds):
    """Prints the table, and a sample of each difference without a name; whether there is none."""
    write_cases(comparison)
    print(f"\n{'judge':12} {'of':22} {'asked':>10} {'same':>10} {'named':>10} {'others':>7}")
    for tally in comparison.tallies:
        print(f"{tally.judge:12} {tally.what:22} {tally.asked():10,} {tally.same:10,} {sum(tally.named.values()):10,} {tally.others:7,}")
    print()
    for tally in comparison.tallies:
        for name, count in sorted(tally.named.items()):
            print(f"named: {tally.judge}, {tally.what}: {name}: {count:,}")
    write_pairs(comparison)
    print(f"{comparison.program.asked:,} runs of programs, {seconds:.0f} seconds")
    others = [tally for tally in comparison.tallies if tally.others]
    for tally in others:
        for text, sample in tally.samples.items():
            print(f"\nno name: {tally.judge}, {tally.what}: {sample.rstrip()}\nof\n{text.rstrip()}")
    return not others
