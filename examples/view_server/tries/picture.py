"""Makes the README's table and results.svg of what ./measure has found: lines of a server, the keys, the clients and
numbers."""
import sys

lines = [line.rstrip("\n").split("\t") for line in open(sys.argv[1])]
servers = list(dict.fromkeys(line[0] for line in lines))
loads = [(keys, clients) for keys in ("uniform", "skewed") for clients in ("1", "8", "64")]
found = {(name, keys, clients): numbers for name, keys, clients, *numbers in lines}

table = [f"GETs a second, and p50 / p99 / p99.9 in microseconds. {sys.argv[2]}; clients and server share them.", ""]
table.append("| | " + " | ".join(f"{keys}, {clients}" for keys, clients in loads) + " | memory, MB |")
table.append("|---" * (len(loads) + 2) + "|")
for name in servers:
    cells = [found[name, *load] for load in loads]
    memory = int(found[name, "memory", "0"][0]) / 1024
    texts = [f"{int(gets):,}, {p50} / {p99} / {p999}" for gets, p50, p99, p999 in cells]
    table.append(f"| {name} | " + " | ".join(texts) + f" | {memory:.0f} |")
with open("README.md") as page:
    before, _, rest = page.read().partition("<!-- measured -->\n")
    after = rest.partition("<!-- end -->")[2]
with open("README.md", "w") as page:
    page.write("\n".join([before + "<!-- measured -->", *table, "<!-- end -->" + after]))

COLOURS = ["#1f6f8b", "#7fb7be", "#c4dde0", "#d9a441", "#999999"]
most = max(int(found[name, *load][0]) for name in servers for load in loads)
parts = []
for place, load in enumerate(loads):
    left = 60 + place * 130
    for column, name in enumerate(servers):
        gets = int(found[name, *load][0])
        height = 200 * gets / most
        x = left + column * 22
        parts.append(f'<rect x="{x}" y="{240 - height:.1f}" width="20" height="{height:.1f}" fill="{COLOURS[column]}"/>')
        parts.append(f'<text x="{x + 10}" y="{236 - height:.1f}" text-anchor="middle">{gets / 1000:.0f}</text>')
    parts.append(f'<text x="{left + 54}" y="256" text-anchor="middle">{load[0]}, {load[1]}</text>')
for column, name in enumerate(servers):
    parts.append(f'<rect x="{60 + column * 155}" y="272" width="10" height="10" fill="{COLOURS[column]}"/>')
    parts.append(f'<text x="{75 + column * 155}" y="281">{name}</text>')
with open("results.svg", "w") as picture:
    picture.write('<svg xmlns="http://www.w3.org/2000/svg" viewBox="0 0 850 306" font-family="sans-serif" font-size="11">\n')
    picture.write('<rect width="850" height="306" fill="white"/>\n')
    title = "Thousand GETs a second, by the choice of keys and the number of clients: higher is better"
    picture.write(f'<text x="60" y="20">{title}</text>\n<text x="60" y="300" fill="#555555">{sys.argv[2]}</text>\n')
    picture.write("\n".join(parts) + "\n</svg>\n")
