"""The sheet: values and chains, right and wrong, converted by the page and by tools/steps."""
from told import steps

AXES = [("5", "400", "1"), ("4", "200", "2.5"), ("0.001", "1000000", "1"), ("0", "400", "1"), ("x", "400", "1")]
VALUES = ["10", "-2.5", "0.333 mm", "600 mm/min", "10 mm/s", "900 steps/s", "1,5", "hello", "2000000", "1e3", "-600 mm/min", "0.0005"]
CHAINS = [["0.333"] * 3, ["30 x 0.333"], ["10", "-2.5 mm", "3 x 0.001"], ["0.3333"], ["hello", "1"], ["0 x 1"], ["999999", "999999", "999999"]]


def sheets(page, tried):
    page.open()
    page.click("tab-sheet")
    tried.that("the log goes", page.is_hidden("log-part"))
    for axis in AXES:
        for name, value in zip(("lead", "turn", "gear"), axis):
            page.write(name, value)
        for value in VALUES:
            page.write("values", value)
            page.click("convert")
            printed, said = steps(axis, [], [value])
            tried.same(f"{axis}: {value}", shown(page), printed or said)
        page.write("values", "\n".join(VALUES))
        page.click("convert")
        printed, said = steps(axis, [], VALUES)
        tried.same(f"{axis}: all values", shown(page), printed or said * len(VALUES))
        for chain in CHAINS:
            page.write("chain", "\n".join(chain))
            page.click("convert-chain")
            printed, said = steps(axis, ["--chain"], chain)
            tried.same(f"{axis}: the chain {chain}", shown(page), printed or said)
    return f"{len(AXES)} axes, each with {len(VALUES)} values and {len(CHAINS)} chains"


def shown(page):
    return page.driver.script("return [...document.querySelectorAll('#sheet-result > *')].map(row => row.textContent)")
