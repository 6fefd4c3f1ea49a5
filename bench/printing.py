"""Tables, as Markdown."""


def print_line(*cells):
    print(f"| {' | '.join(cells)} |", flush=True)


def print_head(*cells):
    print()
    print_line(*cells)
    print_line(*["---"] * len(cells))


def millions(number):
    return f"{number / 1e6:.3g} M" if number < 1e9 else f"{number / 1e6:,.0f} M"
