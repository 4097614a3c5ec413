"""The searches of the plain model of editor.py, for letters to find or to replace, and the input lines of its prompts."""

# what a search passes over: the characters that turn directions, and marks of a direction
CONTROLS = "\u202a\u202b\u202d\u202e\u202c\u2066\u2067\u2068\u2069\u200e\u200f\u061c"
# letters of which a search finds each for the other: a final mem, and alef with hamza; replacing tells them apart
FOUND_AS = str.maketrans("\u05dd\u0623", "\u05de\u0627")


class Search:
    """The state of a search and its keys. The editor that has it brings text, place and edits."""

    def __init__(self):
        # a search is None, begun or typed, or asks for the replacement with begun or with typed, or is at a match, replacing
        self.search, self.query, self.origin = None, "", 0
        # the cursor in the input line of a prompt
        self.spot = 0
        # what a search is for, find or replace; the text that takes a match's place, the place of the match that is shown, and
        # the number of those replaced
        self.aim, self.replacement, self.at, self.count = "find", "", 0, 0

    def begin_search(self, aim):
        self.unselect()
        self.search, self.origin, self.aim, self.spot = "begun", self.place, aim, len(self.query)

    def letters_of(self, text):
        """The letters that a search compares, each as the one that it is found as."""
        letters = "".join(letter for letter in text if letter not in CONTROLS)
        return letters.translate(FOUND_AS) if self.aim == "find" else letters

    def find_next(self):
        """F3 without a search: the next match of the last query, or a search where there is no query yet."""
        if self.letters_of(self.query):
            self.unselect()
            self.aim = "find"
            self.look_on()
        else:
            self.begin_search("find")

    def seek_by(self, letter, is_paste):
        """What a letter does in a search. A paste ends none, asks for no replacement, and replaces nothing."""
        if letter == "\n" and is_paste:
            self.typing = self.typing if self.search == "replacing" else "spent"
        elif letter == "\n" and self.search in ("begun", "typed") and self.aim == "find":
            self.search = None
        elif letter == "\n":
            self.answer_by_enter()
        elif letter != "\t" and self.search != "replacing":
            self.type_in_line(letter)

    # ---- the input line

    def line_name(self):
        """The name of what is typed in the input line, if there is one."""
        if self.ask:
            return None if self.ask == "name" else "answer"
        return {"begun": "query", "typed": "query", "with begun": "replacement", "with typed": "replacement"}.get(self.search)

    def set_line(self, text, spot, searches_on):
        """Takes an edited line. A query is then sought, on from the place or from where the search began."""
        setattr(self, self.line_name(), text)
        self.spot = spot
        self.count_as_typed()
        if not self.ask and self.search == "typed":
            self.place = self.place if searches_on else self.origin
            self.look_from(self.place)

    def count_as_typed(self):
        """What was begun is typed now."""
        if not self.ask:
            self.search = {"begun": "typed", "with begun": "with typed"}.get(self.search, self.search)

    def type_in_line(self, letter):
        """Puts a letter in at the line's cursor, or in place of a line that was begun."""
        is_begun = not self.ask and self.search in ("begun", "with begun")
        text, spot = ("", 0) if is_begun else (getattr(self, self.line_name()), self.spot)
        is_at_end = spot == len(text)
        most = {"line": 16, "code": 6}.get(self.ask, 64)
        if len(text) < most:
            text, spot = text[:spot] + letter + text[spot:], spot + 1
        elif not is_at_end:
            return
        self.set_line(text, spot, is_at_end)

    def is_of_line(self, name):
        """Whether a key is one of the input line, which it then obeys."""
        if not self.line_name():
            return False
        text, spot = getattr(self, self.line_name()), self.spot
        parts = {"erase": (max(spot - 1, 0), spot), "delete": (spot, min(spot + 1, len(text))),
                 "erase word": (self.word_ends(text, spot)[0], spot), "delete word": (spot, self.word_ends(text, spot)[1])}
        if name in parts:
            start, end = parts[name]
            if start < end:
                self.set_line(text[:start] + text[end:], start, False)
        elif name in ("back", "forward"):
            self.spot = max(spot - 1, 0) if name == "back" else min(spot + 1, len(text))
            self.count_as_typed()
        elif name == "put":
            self.put_in_line()
        elif name not in ("select", "mark", "cut"):
            return False
        return True

    # ---- the search

    def answer_by_enter(self):
        """What Enter does where letters are to be replaced."""
        if self.search == "replacing":
            self.replace_match()
        elif self.search in ("begun", "typed"):
            self.ask_replacement()
        else:
            self.show_match()

    def spans(self):
        """Where the query stands, and where it ends there, whatever named characters are between its letters."""
        places = [at for at, letter in enumerate(self.text) if letter not in CONTROLS]
        letters, query = self.letters_of(self.text), self.letters_of(self.query)
        starts = [i for i in range(len(places)) if query and letters.startswith(query, i)]
        return [(places[i], places[i + len(query) - 1] + 1) for i in starts]

    def matches(self):
        """Where the query stands."""
        return [start for start, _ in self.spans()]

    def look_from(self, place):
        """Goes to the first place from `place` on where the query stands, else to the first of all."""
        found = self.matches()
        self.place = next((at for at in found if at >= place), found[0] if found else self.place)

    def look_on(self):
        """Goes to the next match, from the last one to the first."""
        self.look_from(self.place + 1 if self.place < len(self.text) else 0)

    def look_back(self):
        """Goes to the match before, from the first one to the last."""
        found = self.matches()
        self.place = next((at for at in reversed(found) if at < self.place), found[-1] if found else self.place)

    def give_up(self):
        """The cursor goes back to where the search began, but not from a match that is shown."""
        if self.search != "replacing":
            self.place = self.origin
        self.search = None

    def takes(self, name):
        """Whether a search takes a key. Any other key but a repaint ends it first."""
        if name in ("copy", "cancel"):
            self.give_up()
        elif name == "repaint":
            pass
        elif self.search == "replacing":
            return self.match_takes(name)
        elif self.search in ("with begun", "with typed"):
            return self.replacement_takes(name)
        else:
            return self.query_takes(name)
        return True

    def query_takes(self, name):
        """What a key does while the query is typed. Returns False for one that ends the search and is then obeyed without it."""
        if self.is_of_line(name):
            pass
        elif name in ("find", "find next"):
            self.search = "typed"
            self.look_on()
        elif name == "find back":
            self.search = "typed"
            self.look_back()
        elif name == "replace":
            self.ask_replacement()
        else:
            self.search = None
            return False
        return True

    def replacement_takes(self, name):
        """What a key does while the replacement is typed. Returns as `query_takes`."""
        if self.is_of_line(name):
            pass
        elif name in ("find", "find next", "find back"):
            self.begin_search("find")
        elif name == "replace":
            self.show_match()
        else:
            self.search = None
            return False
        return True

    def match_takes(self, name):
        """What a key does while a match is shown. Returns as `query_takes`."""
        if name in ("find", "find next"):
            self.go_on_from(self.at + 1)
        elif name == "find back":
            self.begin_search("find")
        elif name == "replace":
            self.replace_all()
        elif name not in ("erase", "delete"):
            self.search = None
            return False
        return True

    def ask_replacement(self):
        """Asks for the text that takes a match's place, where the query stands somewhere."""
        self.aim = "replace"
        if self.letters_of(self.query):
            self.search = "typed"
            self.look_from(self.place)
            if self.matches():
                self.search, self.count, self.spot = "with begun", 0, len(self.replacement)

    def show_match(self):
        """Asks about the match at the place."""
        self.search, self.at = "replacing", self.place

    def go_on_from(self, at):
        """Goes on to the next match; without one replacing ends where the cursor is."""
        self.search = None
        for start in self.matches():
            if start >= at:
                self.search, self.at, self.place = "replacing", start, start
                break

    def exchange(self, stop, new, count):
        """Puts a text in the place of `count` matches, from the one shown up to `stop`: as at most two edits of one undo group."""
        at = self.at
        self.remove(at, stop)
        if new:
            self.edit(self.text[:at] + new + self.text[at:], at + len(new), True)
        self.origin, self.count = 0, self.count + count

    def replace_match(self):
        self.exchange(dict(self.spans())[self.at], self.replacement, 1)
        self.go_on_from(self.at + len(self.replacement))

    def replace_all(self):
        """Replaces the match that is shown and each after it that has no part in one before."""
        new, stop, count = "", self.at, 0
        for start, end in self.spans():
            if start >= stop:
                new += self.text[stop:start] + self.replacement
                stop, count = end, count + 1
        self.exchange(stop, new, count)
        self.search = None

    def prompt(self):
        """What the last row asks."""
        if self.search == "replacing":
            return "Enter replace F3 next F4 rest ^C end"
        word, text = (self.aim, self.query) if self.search in ("begun", "typed") else ("with", self.replacement)
        return f"{word}: {text if text < chr(0x5d0) else text[::-1]}"
