"""look.py PAGE FOLDER: opens a page of a day in headless Chromium at three widths, light and dark, and keeps
screenshots in FOLDER. Fails on an error in the console, a request to anything but the page itself, a link without its
end, text that leaves the window, or an identifier that occurs twice. Prints the counts of its DOM."""
import os
import sys

sys.dont_write_bytecode = True
from browser import Browser, Failure, browser

WIDTHS = (390, 800, 1280)
COUNTS = {
    "sections": "section", "instruments": "#bulletin tbody tr", "charts": "#instruments > details", "trades": "#trades tbody tr",
    "requests": "#requests .rfq", "causes": "#refusals tbody tr", "participants": "#participants tbody tr",
    "linked": "#linked tbody tr", "crosses": "#crosses tbody tr", "alarms": "#alarms tbody tr", "rows": "#rows tbody tr",
}
# links to an anchor that is not there
LOST = "[...document.querySelectorAll('a[href],use[href]')].map(a=>a.getAttribute('href'))" \
    ".filter(h=>!h.startsWith('#')||!document.getElementById(h.slice(1))).join(' ')"
TWICE = "(i=>i.filter((x,k)=>i.indexOf(x)!==k).join(' '))([...document.querySelectorAll('[id]')].map(e=>e.id))"
FOREIGN = "document.querySelectorAll('script,iframe,img,link,object,embed,form').length"
# elements whose text leaves the window, outside of frames that scroll
WIDE = "[...document.querySelectorAll('body *')].filter(e=>!e.closest('.wide,svg,.q')&&e.getBoundingClientRect().right>innerWidth+1)" \
    ".map(e=>e.tagName+' '+e.textContent.slice(0,30)).slice(0,5).join('; ')"


def main(page, folder):
    path = browser()
    if path is None:
        print("tests/page/check: not run: there is no chromium here")
        return 0
    os.makedirs(folder, exist_ok=True)
    name = os.path.splitext(os.path.basename(page))[0]
    window = Browser(path)
    faults = []
    try:
        window.open(page)
        counts = {what: window.value(f"document.querySelectorAll({selector!r}).length") for what, selector in COUNTS.items()}
        for what, expression in (("links to nothing", LOST), ("identifiers that stand twice", TWICE)):
            found = window.value(expression)
            if found:
                faults.append(f"{what}: {found}")
        if window.value(FOREIGN):
            faults.append("elements that a page of a day does not have")
        for width in WIDTHS:
            for scheme in ("light", "dark"):
                window.look(width, scheme, f"{folder}/{name}_{width}_{scheme}.png")
            wide = window.value(WIDE)
            if wide:
                faults.append(f"at {width} px these leave the window: {wide}")
        faults += [f"console: {line}" for line in window.reported]
        faults += [f"request: {url}" for url in window.asked if url != "file://" + os.path.abspath(page)]
    except Failure as failure:
        faults.append(str(failure))
    finally:
        window.end()
    for fault in faults:
        print(f"tests/page: {fault}", file=sys.stderr)
    print("on the page:", ", ".join(f"{count} {what}" for what, count in counts.items()))
    return 1 if faults else 0


if __name__ == "__main__":
    sys.exit(main(*sys.argv[1:]))
