"""Tables that measurements print, and what is summed up of them."""

import statistics


def print_row(cells):
    print("|", " | ".join(str(cell) for cell in cells), "|", flush=True)


def print_head(titles):
    """The head of a table whose first column is a name and whose others are numbers."""
    print_row(titles)
    print_row(["---"] + ["---:"] * (len(titles) - 1))


def print_means(ratios, meanings):
    """The geometric mean of the ratios of each name, their least and their greatest; each ratio has the name of its plot."""
    print()
    for name, each in ratios.items():
        if each:
            mean = statistics.geometric_mean(ratio for ratio, _ in each)
            (least, one), (most, other) = min(each), max(each)
            print(f"- {meanings[name]}: {mean:.2f} in the geometric mean of {len(each)} plots, "
                  f"at least {least:.2f} (`{one}`), at most {most:.2f} (`{other}`)")
