"""A client of the mirror: it holds both ends of the pipe to `gaz serve`. Written to be copied.

    with Gazetteer("/data/geonames", "gaz") as gazetteer:
        for place in gazetteer.search(name_equals="évreux", country="FR"):
            print(place["name"], place["population"])
"""
import io
import subprocess

PLACE = ("geonameid name asciiname alternatenames latitude longitude feature_class feature_code country_code cc2 "
         "admin1_code admin2_code admin3_code admin4_code population elevation dem timezone modification_date").split()
CODE = ("code", "name", "ascii_name", "geonameid")


class Refused(Exception):
    """The mirror refused the request; the words are its reply, without `refused`."""


class Ended(Exception):
    """The program ended before it replied; the status is the first argument."""


class Gazetteer:
    def __init__(self, folder, program="gaz"):
        """Opens the mirror in the folder, where the export's files are too."""
        self.process = subprocess.Popen([program, "serve"], cwd=folder, stdin=subprocess.PIPE, stdout=subprocess.PIPE)
        # Only LF ends a line; a CR is part of its column.
        self.replies = io.TextIOWrapper(self.process.stdout, "utf-8", newline="\n")

    def ask(self, request):
        """The lines of a reply before its last one, which begins with `ok`."""
        if "\n" in request:
            raise ValueError("a request is one line")
        try:
            self.process.stdin.write(request.encode() + b"\n")
            self.process.stdin.flush()
        except BrokenPipeError:
            raise Ended(self.process.wait()) from None
        lines = []
        for line in self.replies:
            line = line.removesuffix("\n")
            if line.startswith("ok "):
                return lines
            if line.startswith("refused "):
                raise Refused(line.removeprefix("refused "))
            lines.append(line)
        raise Ended(self.process.wait())

    def places(self, request):
        return [dict(zip(PLACE, line.split("\t"))) for line in self.ask(request)]

    def get(self, geonameid):
        """The place, or None."""
        return next(iter(self.places(f"get {geonameid}")), None)

    def search(self, **parameters):
        """The places that pass, by population; the parameters are those of docs/PROTOCOL.md."""
        return self.places("search " + "\t".join(f"{name}={value}" for name, value in parameters.items())
                           if parameters else "search")

    def children(self, geonameid, most=200):
        return self.places(f"children {geonameid} maxRows={most}")

    def hierarchy(self, geonameid):
        """From the top down to the place itself."""
        return self.places(f"hierarchy {geonameid}")

    def admin(self, code):
        """The admin code's line, or None."""
        return next((dict(zip(CODE, line.split("\t"))) for line in self.ask(f"admin {code}")), None)

    def load(self, date):
        self.ask(f"load {date}")

    def day(self, date):
        self.ask(f"day {date}")

    def close(self):
        """Ends the program; its status is 0 where all went well."""
        try:
            self.process.stdin.close()
        except BrokenPipeError:
            pass
        self.replies.close()
        return self.process.wait()

    def __enter__(self):
        return self

    def __exit__(self, *_):
        self.close()
