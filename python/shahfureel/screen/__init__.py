"""The station screen: one page in a browser of this computer, served by the standard library alone, over the package.

`held` has the site's file, read again when it changes; `api` answers what the page asks, a JSON object to each; `server` is HTTP, with
every check and limit. The page is page.html, page.css and page.js. Nothing is written, and nothing is kept of a client.
"""

from .api import Screen
from .held import Held, read_day
from .server import serve

__all__ = ["Held", "Screen", "read_day", "serve"]
