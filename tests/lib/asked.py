"""The gazetteer of bench/asking_model.py as files of a load and a day, with requests at random, and the replies that the model has to them.

asked.py FOLDER SEED REQUESTS    writes the export's files, `requests` and `wanted`; each seed has another gazetteer and other requests"""
import os
import sys

sys.path.insert(0, os.path.join(os.path.dirname(os.path.abspath(__file__)), "..", "..", "bench"))
import asking_model as model  # noqa: E402


class Draws(model.Draws):
    """Those of another seed."""

    seed = 0

    def __init__(self, x):
        super().__init__(x + Draws.seed * 100003)


class Tables(model.Tables):
    """The model, which keeps the lines in their order too."""

    def __init__(self):
        self.put = {"rows": [], "alternates": [], "links": []}
        super().__init__()

    def put_row(self, line):
        self.put["rows"].append(line)
        super().put_row(line)

    def put_alternate(self, line):
        self.put["alternates"].append(line)
        super().put_alternate(line)

    def put_link(self, line):
        self.put["links"].append(line)
        super().put_link(line)

    def replies(self, request):
        """The lines of a reply."""
        answer = self.answer(request)
        if answer == "none":
            lines = []
        elif request.split(" ")[0] in ["get", "admin"]:
            lines = [answer]
        else:
            lines = ["\t".join(self.rows[int(id)]) for id in answer.split(" ")]
        return [*lines, f"ok {len(lines)}"]


def changes(first, last):
    """The lines of a day: those that come or change, and a delete for each that goes."""
    before = {line.split("\t")[0]: line for line in first}
    after = {str(id): "\t".join(columns) for id, columns in last.items()}
    return [line for id, line in after.items() if before.get(id) != line], [f"{id}\tname\tgone" for id in before if id not in after]


def main():
    folder, Draws.seed, number = sys.argv[1], int(sys.argv[2]), int(sys.argv[3])
    model.Draws = Draws
    tables = Tables()
    rows, alternates = tables.put["rows"][: model.ROWS], tables.put["alternates"][: model.ALTERNATES]
    codes = list(tables.codes.values())
    changed_rows, gone_rows = changes(rows, tables.rows)
    changed_alternates, gone_alternates = changes(alternates, tables.alternates)
    named = [line.split("\t") for line in model.NAMED]
    requests = [model.Requests.request(draws) for draws in [model.Requests()] * number]
    files = {
        "allCountries.txt": rows, "alternateNamesV2.txt": alternates, "hierarchy.txt": tables.put["links"],
        "countryInfo.txt": ["# code and place"] + [code + "\t" * 16 + place + "\t\t" for code, place in named],
        "admin1CodesASCII.txt": codes[::2], "admin2Codes.txt": codes[1::2],
        "modifications-2024-03-02.txt": changed_rows, "deletes-2024-03-02.txt": gone_rows,
        "alternateNamesModifications-2024-03-02.txt": changed_alternates, "alternateNamesDeletes-2024-03-02.txt": gone_alternates,
        "requests": ["load 2024-03-01", "day 2024-03-02", *requests],
        "wanted": ["ok load 2024-03-01", "ok day 2024-03-02"] + [line for request in requests for line in tables.replies(request)],
    }
    for name, lines in files.items():
        with open(os.path.join(folder, name), "w", encoding="utf-8", newline="\n") as file:
            file.writelines(line + "\n" for line in lines)


if __name__ == "__main__":
    main()
