"""What a call writes.

In comes a `View`. screen.py writes the text for a terminal, page.py one file of HTML, and exports.py JSON (its form is schema.json) and
SARIF 2.1.0. sweep.py and caches.py show their own commands, on a terminal and as a page.

drawings.py makes the pictures of pages as SVG, and loads the templates of templates/, which escape every name. `campaign/` and
`bench/clock/` draw with it too.

Out go texts; main.py writes them to the files that the call names."""
