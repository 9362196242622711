"""The questions of the desk, each with what its words are."""

# Of each question its words: P is a patron, C a copy, B a branch, T a title, K a kind, N a day, A a number from which
# a list goes on, F a text to be searched, and W a barcode.
FORMS = {
    "copy": "C", "copies": "T A", "queue": "T A", "account": "P A", "debts": "A", "overdue": "B A", "shelf": "B A", "pulls": "B A", "transits": "B A", "till": "N", "today": "", "borrower": "P",
    "find-patrons": "A F", "find-titles": "A F", "branches": "A", "closed-days": "B A", "kinds": "A", "rules": "K A", "missing-copies": "A", "loans": "C A",
    "find-barcode": "W", "till-at": "B N",
}


def every_question(**values):
    """Each question, with these values for the letters of its words."""
    return [[name, *(values[it] for it in form.split())] for name, form in FORMS.items()]
