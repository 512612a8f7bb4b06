"""The content-security policy under which the page runs."""
from pages.opened_page import expect_equal

VIOLATION = """new Promise((done) => {
  addEventListener("securitypolicyviolation", (event) => done(event.effectiveDirective), { once: true });
  setTimeout(() => done("nothing is refused"), 5000);
  %s })"""
REFUSED = {
    "connect-src": "fetch('http://127.0.0.1:9/').catch(() => null)",
    "img-src": "document.body.append(Object.assign(new Image(), { src: 'http://127.0.0.1:9/' }))",
    "script-src-elem": "document.body.append(Object.assign(document.createElement('script'), { textContent: '1' }))",
}


def policy(page):
    """The page reaches no network and runs no code but its own."""
    page.open()
    for directive, attempt in REFUSED.items():
        expect_equal(page.value(VIOLATION % attempt), directive)
    # The browser says so on its console too
    page.browser.complaints.clear()
