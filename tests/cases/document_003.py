"""Light VerSec's own documentation (the team's source document 003): the three checks of its quick example and the ten of its
tutorial, on models encoded by hand.

In QUICK and TUTORIAL each occurrence of a temporary pattern has a Tag of its own, as 000 says; temporary.py has the same rules with
Tags that occurrences share. What 003 prints as True is "allowed" here, with the nodes at which the two rules end, the
edges that lead there and what their Tags are bound to; False is "not allowed".
"""
from build import *


def key(*tags):
    """#KEY: "KEY"/_/_/_, with the Tags of this occurrence."""
    return ["KEY", *((n,) for n in tags)]


# Tags: 1 category, 2 year, 3 month, 4 role, 5 author, 6 admin; others are temporary
ROOT, ARTICLE, ADMIN, AUTHOR = 6, 10, 16, 22
QUICK_COUNT, TUTORIAL_COUNT = 6, 4  # how many patterns are named


def quick(root, admin, author):
    """The quick example, by the Tags of #KEY in each rule that has it."""
    return tree(
        ["a", "blog", *key(*root), ()],  # #root: Nodes 1 to 6
        ["a", "blog", "article", (1,), (2,), (3,), (AUTHOR,)],  # #article: Nodes 7 to 10
        ["a", "blog", "admin", (6,), *key(*admin), (ROOT,)],  # #admin: Nodes 11 to 16
        ["a", "blog", (4, must_be("author")), (5,), *key(*author), (ADMIN,)],  # #author: Nodes 17 to 22
        patterns=QUICK_COUNT,
    )


def quick_tags(root, admin, author):
    """The Tag of each edge from the start to the Node at which each rule ends, None for a ValueEdge."""
    return {
        ROOT: (None, None, None, *root),
        ARTICLE: (None, None, None, 1, 2, 3),
        ADMIN: (None, None, None, 6, None, *admin),
        AUTHOR: (None, None, 4, 5, None, *author),
    }


KEY_TAGS = (7, 8, 9), (10, 11, 12), (13, 14, 15)
QUICK = quick(*KEY_TAGS)

# the edges from the start to the Node at which each rule ends: of Node 2 first those for "KEY", "article" and "admin", then the pattern
QUICK_EDGES = {ROOT: (0, 0, 0, 0, 0, 0), ARTICLE: (0, 0, 1, 0, 0, 0), ADMIN: (0, 0, 2, 0, 0, 0, 0, 0), AUTHOR: (0, 0, 3, 0, 0, 0, 0, 0)}

QUICK_CHECKS = (
    ("/a/blog/article/math/2022/03", "/a/blog/author/xinyu/KEY/1/admin/1", f"allowed {ARTICLE} {AUTHOR}"),
    ("/a/blog/author/xinyu/KEY/1/admin/1", "/a/blog/admin/admin/KEY/1/root/1", f"allowed {AUTHOR} {ADMIN}"),
    ("/a/blog/author/xinyu/KEY/1/admin/1", "/a/blog/KEY/1/self/1", "not allowed"),
)

# Tags: 1 adminID, 2 ID, 3 year, 4 articleID; others are temporary
T_ROOT, T_ADMIN, T_AUTHOR, T_USER, T_ARTICLE = 6, 12, 18, 24, 28
VALID_ID = constraint(option(call("$isValidID")))
VALID_YEAR = constraint(option(call("$isValidYear")))


def tutorial(root, admin, author, user):
    """The tutorial, by the Tags of #KEY in each rule that has it, with that of _role before them where the rule has one."""
    return tree(
        ["ndn", "blog", *key(*root), ()],  # #root: Nodes 1 to 6
        ["ndn", "blog", (admin[0], must_be("admin")), (1,), *key(*admin[1:]), (T_ROOT,)],  # #admin: Nodes 7 to 12
        ["ndn", "blog", (author[0], must_be("author")), (2, VALID_ID), *key(*author[1:]), (T_ADMIN,)],  # #author: Nodes 13 to 18
        ["ndn", "blog", (user[0], must_be("reader", "author")), (2, VALID_ID), *key(*user[1:]), (T_ADMIN,)],  # #user: Nodes 19 to 24
        ["ndn", "blog", (2,), "post", (3, VALID_YEAR), (4,), (T_ADMIN, T_AUTHOR)],  # #article: Nodes 25 to 28
        patterns=TUTORIAL_COUNT,
    )


def tutorial_tags(root, admin, author, user):
    return {
        T_ROOT: (None, None, None, *root),
        T_ADMIN: (None, None, admin[0], 1, None, *admin[1:]),
        T_AUTHOR: (None, None, author[0], 2, None, *author[1:]),
        T_USER: (None, None, user[0], 2, None, *user[1:]),
        T_ARTICLE: (None, None, 2, None, 3, 4),
    }


T_KEY_TAGS = (5, 6, 7), (8, 9, 10, 11), (12, 13, 14, 15), (16, 17, 18, 19)
TUTORIAL = tutorial(*T_KEY_TAGS)

# of Node 2 first the edge for "KEY", then the patterns in the rules' order
TUTORIAL_EDGES = {
    **{T_ROOT: (0, 0, 0, 0, 0, 0), T_ADMIN: (0, 0, 1, 0, 0, 0, 0, 0), T_AUTHOR: (0, 0, 2, 0, 0, 0, 0, 0)},
    **{T_USER: (0, 0, 3, 0, 0, 0, 0, 0), T_ARTICLE: (0, 0, 4, 0, 0, 0)},
}

ADMIN_KEY = "/ndn/blog/admin/000001/KEY/1/root/1"
AUTHOR_KEY = "/ndn/blog/author/100001/KEY/1/000001/1"
TUTORIAL_CHECKS = (
    (ADMIN_KEY, "/ndn/blog/KEY/1/self/1", f"allowed {T_ADMIN} {T_ROOT}"),
    ("/ndn/blog/admin/000001/key/1/root/1", "/ndn/blog/KEY/1/self/1", "not allowed"),
    ("/ndn/blog/admin/000002/KEY/1/root/1", ADMIN_KEY, "not allowed"),
    (AUTHOR_KEY, ADMIN_KEY, f"allowed {T_AUTHOR} {T_ADMIN}"),
    ("/ndn/blog/author/1000/KEY/1/000001/1", ADMIN_KEY, "not allowed"),
    ("/ndn/blog/reader/200001/KEY/1/000001/1", ADMIN_KEY, f"allowed {T_USER} {T_ADMIN}"),
    ("/ndn/blog/100001/post/2022/1", AUTHOR_KEY, f"allowed {T_ARTICLE} {T_AUTHOR}"),
    ("/ndn/blog/100001/post/2022/1", "/ndn/blog/author/100002/KEY/1/000001/1", "not allowed"),
    ("/ndn/blog/100001/post/202/1", AUTHOR_KEY, "not allowed"),
    ("/ndn/blog/200001/post/2022/1", "/ndn/blog/reader/200001/KEY/1/000001/1", "not allowed"),
)


def by_rules(packet_rule, packet, key_rule, key, edges, tags, named):
    """The line of an allowed pair of URIs, by the Nodes at which their rules end, and the edges to each such Node and their Tags."""
    words = pair_bindings(path(packet), tags[packet_rule], path(key), tags[key_rule], named)
    return allowed(packet_rule, key_rule, *edges[packet_rule], *edges[key_rule], **words)


def rules_of(answer):
    return map(int, answer.split()[1:])


def check_line(check, edges, tags, named):
    packet, key, answer = check
    if answer == "not allowed":
        return NOT_ALLOWED
    packet_rule, key_rule = rules_of(answer)
    return by_rules(packet_rule, packet, key_rule, key, edges, tags, named)


def by_hand():
    """The words of checks, each place counted by hand."""
    # a at 2 (3 bytes), blog at 5 (6); from 11 article (9), math (6), 2022 (6), 03 (4); or author (8), xinyu (7); or admin (7), admin (7)
    article, author, admin = [(1, 20, 6), (2, 26, 6), (3, 32, 4)], [(4, 11, 8), (5, 19, 7)], [(6, 18, 7)]
    # ndn at 2 (5 bytes), blog at 7 (6); from 13 admin (7), its ID (8); or author or reader (8), the ID (8); or the ID (8), post, 2022 (6 each), 1
    admin_id, user_id, post = [(1, 20, 8)], [(2, 21, 8)], [(2, 13, 8), (3, 27, 6), (4, 33, 3)]
    words = {1: dict(packet=article, key=author), 2: dict(packet=author, key=admin)}
    t_words = {1: dict(packet=admin_id), 4: dict(packet=user_id, key=admin_id), 6: dict(packet=user_id, key=admin_id), 7: dict(packet=post)}
    for what, of, edges, checks, stated in (
        ("quick example", QUICK, QUICK_EDGES, QUICK_CHECKS, words),
        ("tutorial", TUTORIAL, TUTORIAL_EDGES, TUTORIAL_CHECKS, t_words),
    ):
        for i, bound in stated.items():
            packet, key, answer = checks[i - 1]
            at, by = rules_of(answer)
            yield f"{what}, check {i}, by hand", sign(of, path(packet), path(key)), allowed(at, by, *edges[at], *edges[by], **bound)


def patterns():
    """Its examples of patterns and Constraints."""
    key_pattern = tree(["ndn", (1,), "KEY", (2,), ()])  # /"ndn"/user/"KEY"/key_id
    yield "/ndn/xinyu/KEY/1", match(key_pattern, path("/ndn/xinyu/KEY/1"), OLD), matched(4, (1, 7, 7), (2, 19, 3))
    yield "/ndn/xinyu/key/1", match(key_pattern, path("/ndn/xinyu/key/1"), OLD), kept("no match")
    yield "/ndn/xinyu/KEY/1/self/1", match(key_pattern, path("/ndn/xinyu/KEY/1/self/1"), OLD), kept("no match")
    # /a/"b"/a/d, and /a/"b"/c/d & {c: a}: the name's components stand at 2, 5, 8 and 11
    twice = tree([(1,), "b", (1,), (2,), ()])
    equal = tree([(1,), "b", (3, constraint(option(tag(1)))), (2,), ()])
    yield "/x/b/x/ddd", match(twice, path("/x/b/x/ddd"), OLD), matched(4, (1, 2, 3), (2, 11, 5))
    yield "/x/b/y/ddd", match(twice, path("/x/b/y/ddd"), OLD), kept("no match")
    yield "/x/b/x/ddd, c: a", match(equal, path("/x/b/x/ddd"), OLD), matched(4, (1, 2, 3), (2, 11, 5), (3, 8, 3))
    yield "/x/b/y/ddd, c: a", match(equal, path("/x/b/y/ddd"), OLD), kept("no match")
    # /a/b/c & {b: c} matches nothing by itself; as a key it does where the packet has bound c
    later = tree([(1,), (2, constraint(option(tag(3)))), (3,), ()])
    yield "b: c, before c", match(later, path("/x/y/y"), OLD), kept("no match")
    # #r1: /a/b & {b: c}, Node 2, and #r2: "r2"/c/d <= #r1, Node 5
    chain = tree([(1,), (2, constraint(option(tag(3)))), ()], ["r2", (3,), (4,), (2,)])
    yield "#r1 by itself", match(chain, path("/x/y"), OLD), kept("no match")
    line = allowed(5, 2, 0, 0, 0, 1, 0, packet=[(3, 6, 3), (4, 9, 3)], key=[(1, 2, 3), (2, 5, 3)])
    yield "#r1 signs #r2 with its c", sign(chain, path("/r2/y/z"), path("/x/y")), line
    yield "and with another", sign(chain, path("/r2/y/z"), path("/x/z")), NOT_ALLOWED
    # a post is signed by its own author, or by any admin
    posts = tree(
        ["post", (1,), (2,), (5, 8)],
        ["author", (1,), (8,)],
        ["admin", (3,), (4,), ()],
    )
    post = [(1, 8, 7), (2, 15, 6)]
    yield "the post's author", sign(posts, path("/post/xinyu/2022"), path("/author/xinyu")), allowed(3, 5, 0, 0, 0, 1, 0, packet=post)
    yield "another author", sign(posts, path("/post/xinyu/2022"), path("/author/zhiyi")), NOT_ALLOWED
    line = allowed(3, 8, 0, 0, 0, 2, 0, 0, packet=post, key=[(3, 9, 7), (4, 16, 3)])
    yield "any admin", sign(posts, path("/post/xinyu/2022"), path("/admin/zhiyi/k")), line


def cases():
    yield "quick example", verdict(QUICK), "accepted 23"
    yield "tutorial", verdict(TUTORIAL), "accepted 29"
    for i, check in enumerate(QUICK_CHECKS, 1):
        line = check_line(check, QUICK_EDGES, quick_tags(*KEY_TAGS), QUICK_COUNT)
        yield f"quick example, check {i}", sign(QUICK, *map(path, check[:2])), line
    for i, check in enumerate(TUTORIAL_CHECKS, 1):
        line = check_line(check, TUTORIAL_EDGES, tutorial_tags(*T_KEY_TAGS), TUTORIAL_COUNT)
        yield f"tutorial, check {i}", sign(TUTORIAL, *map(path, check[:2])), line
    yield from by_hand()
    # /ndn at 2 (5 bytes), /blog at 7 (6), the rest from 13: 100001 (8 bytes), post (6), 2022 (6), 1 (3)
    article = matched(T_ARTICLE, (2, 13, 8), (3, 27, 6), (4, 33, 3))
    yield "tutorial, an article's bindings", match(TUTORIAL, path("/ndn/blog/100001/post/2022/1"), OLD), article
    yield "tutorial, no such name", match(TUTORIAL, path("/ndn/blog"), OLD), matched(2)
    yield from patterns()
