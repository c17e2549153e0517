#!/usr/bin/env python3
"""tape.py WHAT URL ..: tape calls by gfal2's library, as a transfer service makes them. It ends with 0 where all was as it should be, else with 1.

stage    asks for all files in one call, and polls until each is on disk, at most 40 seconds
evict    the same, and then releases them with the token of the request
cancel   asks for all files, cancels them, and polls once: none is to be on disk
archive  polls until each file is on tape, at most 40 seconds"""
import errno, sys, time

import gfal2

context = gfal2.creat_context()


def until(call):
    """Polls until no file is said to be waited for, and tells the errors of the others."""
    for _ in range(80):
        errors = call()
        if not any(it and it.code == errno.EAGAIN for it in errors):
            return [it for it in errors if it]
        time.sleep(0.5)
    return errors


def asked(urls):
    errors, token = context.bring_online(urls, [""] * len(urls), 0, 60, True)
    failed = [it for it in errors if it and it.code != errno.EAGAIN]
    if failed:
        sys.exit(f"asked: {failed[0]}")
    return token


def main(what, urls):
    if what == "archive":
        return until(lambda: context.archive_poll(urls))
    token = asked(urls)
    if what == "cancel":
        failed = [it for it in context.abort_bring_online(urls, token) if it]
        return failed or [it for it in context.bring_online_poll(urls, token) if not it]
    failed = until(lambda: context.bring_online_poll(urls, token))
    if what == "evict" and not failed:
        failed = [it for it in context.release(urls, token) if it]
    return failed


left = main(sys.argv[1], sys.argv[2:])
if left:
    sys.exit(f"{sys.argv[1]}: {left[0]}")
