"""The examples for servers before the web name places of a machine; a test has these elsewhere."""

PLACES = {"/var/log/caddy/circ.log": "caddy.log", "/run/circ-limited": "limited"}


def here(text, place):
    """An example, with the log of Caddy and the folder of addresses that fail2ban writes at a place."""
    for path, name in PLACES.items():
        text = text.replace(path, f"{place}/{name}")
    return text
