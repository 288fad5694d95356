"""Signing in and out in a browser that asks for the password itself."""

import pytest

from acceptance.front.office import PASSWORD

pytestmark = [pytest.mark.browser, pytest.mark.needs("chromium")]


@pytest.fixture(scope="module")
def office(new_office):
    return new_office()


def test_who_has_signed_out_is_asked_for_the_password_again_and_leaves_no_readers_in_the_tab(browser, office):
    page, asked, gives = browser.page(None, office.staff), [], [True]

    def answer(event):
        """Goes on with a request, or gives the password."""
        if event.get("sessionId") != page.session:
            return
        paused = {"session": page.session, "requestId": event["params"].get("requestId")}
        if event["method"] == "Fetch.requestPaused":
            browser.send("Fetch.continueRequest", **paused)
        if event["method"] == "Fetch.authRequired":
            asked.append(event)
            given = {"response": "ProvideCredentials", "username": PASSWORD[0], "password": PASSWORD[1]}
            browser.send("Fetch.continueWithAuth", **paused,
                         authChallengeResponse=given if gives[0] else {"response": "CancelAuth"})

    browser.on_event = answer
    page.call("Fetch.enable", handleAuthRequests=True, patterns=[{"urlPattern": "*"}])
    page.call("Page.navigate", url=f"{office.staff}/#/out")
    page.see("Reshelve", "body")
    assert len(asked) == 1
    page.js("sessionStorage.setItem('of readers: cards', '[[1, \"Ann\", \"2030-01-01\", []]]')")
    gives[0] = False
    page.press("Sign out")
    page.see("You have signed out", "body")
    assert page.js("JSON.stringify(sessionStorage)") == "{}"
    before = len(asked)
    page.call("Page.navigate", url=f"{office.staff}/?again")
    page.see("401", "body")
    assert len(asked) > before
    page.call("Fetch.disable")
    page.close()
