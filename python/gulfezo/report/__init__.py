"""Pages about an answer: what was asked, the verdict, the picture, and a refutation step by step.

`data` packs what a page shows, `page` writes it, and `page.js` and `page.css` are what runs in the browser.
"""
