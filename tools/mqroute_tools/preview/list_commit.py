"""The commit of an access list, where it is in git.

The folder of a list may be somebody else's, and so may its git configuration. What is asked of git
here runs no command that one names, and writes nothing: the commit comes of `git log` without
signatures, and whether the file differs from it of the ids of both texts, without filters.
"""
import os

from ..common.git import said_by_git


def commit_of(name: str) -> str:
    """The short name of the last commit of the file, and whether the file has other bytes. Empty
    where it is in no git, or git fails."""
    folder, file = os.path.split(name)
    commit = said_by_git(
        folder, "log", "-1", "--no-show-signature", "--no-ext-diff", "--format=%h", "--", file)
    if not commit:
        return ""
    stored = said_by_git(folder, "rev-parse", "--verify", "--quiet", f"HEAD:./{file}")
    own = said_by_git(folder, "hash-object", "--no-filters", "--", file)
    return commit if stored == own else f"{commit}, changed since"
