"""Jobs by hand: what each kind of schedule gives, and jobs as long as there can be."""

from .toml_text import job_text

# Jobs by hand, each with a step and its answers over lanes and over shared inboxes: a wrong carrier or a wrong reduction loses one.
CHOSEN = [
    # Rank 2 knows that rank 0 stopped when it sends. A shared inbox has the letter of rank 0 before that one, if it has it at all.
    ("late_letter", job_text(3, 1, [
        (0, "send", {"to": 1, "tag": 1, "body": "a"}), (0, "stop", {}),
        (1, "recv", {}), (1, "wait", {"req": 0}), (1, "recv", {}), (1, "wait", {"req": 2}),
        (2, "recv", {"from": 0}), (2, "wait", {"req": 0}), (2, "send", {"to": 1, "tag": 1, "body": "b"}),
    ]), "1 3 wait 2", "done from 0 tag 1 61 | done from 2 tag 1 62 | pending", "done from 2 tag 1 62 | pending"),
    # Rank 0 may pass the revocation on before it sends. Only then is rank 1 freed without a letter of others.
    ("passed_on_first", job_text(3, 4, [
        (0, "send", {"to": 1, "tag": 0, "body": "a"}),
        (1, "dup", {}), (1, "recv", {"from": 0, "comm": 1}), (1, "wait", {"req": 1}),
        (1, "send", {"to": 1, "tag": 0, "body": "b"}), (1, "recv", {}), (1, "wait", {"req": 4}),
        (2, "dup", {}), (2, "send", {"to": 1, "tag": 0, "body": "c"}), (2, "revoke", {"comm": 1}), (2, "stop", {}),
    ]), "1 5 wait 4", *["done from 0 tag 0 61 | done from 1 tag 0 62 | done from 2 tag 0 63 | pending"] * 2),
    # The revocation follows the letter in time, and may still come to rank 1 first.
    ("revoked_first", job_text(3, 1, [
        (0, "send", {"to": 1, "tag": 0, "body": "a"}), (0, "send", {"to": 2, "tag": 0, "body": "b"}),
        (1, "recv", {"from": 0}), (1, "wait", {"req": 0}),
        (2, "recv", {"from": 0}), (2, "wait", {"req": 0}), (2, "revoke", {}),
    ]), "1 1 wait 0", *["done from 0 tag 0 61 | over 6 Revoked | refused 7 NoRequest"] * 2),
    # Rank 0 passes the revocation on before its letter or behind it, and rank 2 sees which came first.
    ("passed_on_beside", job_text(3, 4, [
        (0, "dup", {}), (0, "send", {"to": 2, "tag": 1, "body": "y"}), (0, "revoke", {"comm": 1}),
        (1, "dup", {}), (1, "send", {"to": 2, "tag": 2, "body": "x"}),
        (2, "dup", {}), (2, "recv", {"from": 1, "tag": 9, "comm": 1}), (2, "recv", {"from": 0, "tag": 1}),
        (2, "recv", {"from": 1, "tag": 2}), (2, "wait", {"req": 1}), (2, "cancel", {"req": 2, "name": "late"}),
        (2, "cancel", {"req": 3, "if": {"step": "late", "is": ["cancelled"]}}),
    ]), "2 6 cancel 3", *["cancelled | done from 1 tag 2 78 | skipped"] * 2),
    # What was sent may be lost with its sender.
    ("lost_letter", job_text(2, 1, [
        (0, "send", {"to": 1, "tag": 0, "body": "a"}), (0, "stop", {}), (1, "recv", {"from": 0}), (1, "wait", {"req": 0}),
    ]), "1 1 wait 0", *["done from 0 tag 0 61 | over 5 ProcFailed"] * 2),
    # Both letters may be kept, in either order, before a receive asks for any.
    ("kept_in_order", job_text(3, 2, [
        (0, "send", {"to": 2, "tag": 1, "body": "a"}), (0, "send", {"to": 2, "tag": 2, "body": "c"}),
        (1, "send", {"to": 2, "tag": 1, "body": "b"}),
        (2, "recv", {"from": 0, "tag": 2}), (2, "wait", {"req": 0}), (2, "recv", {"tag": 1}), (2, "wait", {"req": 2}),
    ]), "2 3 wait 2", *["done from 0 tag 1 61 | done from 1 tag 1 62"] * 2),
    # The same, before a probe asks for any.
    ("probed_in_order", job_text(3, 2, [
        (0, "send", {"to": 2, "tag": 1, "body": "a"}), (0, "send", {"to": 2, "tag": 2, "body": "c"}),
        (1, "send", {"to": 2, "tag": 1, "body": "b"}),
        (2, "recv", {"from": 0, "tag": 2}), (2, "wait", {"req": 0}), (2, "probe", {"tag": 1}), (2, "mrecv", {"req": 2}),
    ]), "2 3 mrecv 2", *["done from 0 tag 1 61 | done from 1 tag 1 62"] * 2),
    # A letter that only a receive by name can get comes before the cancel, or behind it.
    ("cancelled_or_late", job_text(2, 1, [
        (0, "send", {"to": 1, "tag": 0, "body": "a"}),
        (1, "recv", {"from": 0}), (1, "cancel", {"req": 0}), (1, "probe", {"from": 0}),
    ]), "1 1 cancel 0", *["cancelled | done from 0 tag 0 61"] * 2),
    # A probe waits for a letter, which a revocation or a stop may keep away.
    ("probed_or_not", job_text(3, 1, [
        (0, "send", {"to": 1, "tag": 0, "body": "a"}), (0, "stop", {}), (1, "probe", {"from": 0}), (2, "revoke", {}),
    ]), "1 0 probe 0 tag any comm 0", *["found from 0 tag 0 length 1 | refused 5 ProcFailed | refused 6 Revoked"] * 2),
    # All flags count, and no schedule makes a difference.
    ("agreed_by_all", job_text(3, 1, [
        (0, "agree", {"flag": 6}), (0, "shrink", {}), (1, "agree", {"flag": 3}), (1, "shrink", {}),
        (2, "agree", {"flag": 7}), (2, "shrink", {}),
    ]), "0 0 agree 6 comm 0", *["agreed 2 without []"] * 2),
    # Who stopped before it entered is missing. A revocation is nothing to an agreement.
    ("agreed_without_one", job_text(3, 1, [
        (0, "agree", {"flag": 12}), (1, "stop", {}), (2, "revoke", {}), (2, "agree", {"flag": 10}),
    ]), "0 0 agree 12 comm 0", *["agreed 8 without [1]"] * 2),
    # Who stopped between two agreements counts in the first alone.
    ("agreed_once_more", job_text(3, 1, [
        (0, "agree", {"flag": 7}), (0, "agree", {"flag": 12}), (1, "agree", {"flag": 2}), (1, "stop", {}),
        (2, "agree", {"flag": 3}), (2, "agree", {"flag": 6}),
    ]), "0 1 agree 12 comm 0", *["agreed 4 without [1]"] * 2),
    # Rank 1 enters where its duplicate was made before the revocation came; else it is missing.
    ("entered_or_not", job_text(3, 1, [
        (0, "dup", {}), (0, "agree", {"flag": 12, "comm": 1}),
        (1, "dup", {}), (1, "agree", {"flag": 6, "comm": 1}), (1, "stop", {}),
        (2, "dup", {}), (2, "revoke", {}), (2, "agree", {"flag": 14, "comm": 1}), (2, "stop", {}),
    ]), "0 1 agree 12 comm 1", *["agreed 12 without [1] | agreed 4 without [] | refused 1 NoComm"] * 2),
    # The second stop is reached only where the first one is skipped, and the send only where the second one is skipped.
    ("skipped_stop", job_text(3, 1, [
        (0, "send", {"to": 1, "tag": 0, "body": "a"}), (0, "stop", {}),
        (1, "recv", {"from": 0, "name": "letter"}), (1, "wait", {"req": "letter", "name": "got"}),
        (1, "stop", {"if": {"step": "got", "is": ["done"]}, "name": "first"}),
        (1, "send", {"to": 2, "tag": 0, "body": "b", "if": [{"step": "got", "is": ["pending"]}, {"step": "first", "is": ["skipped"]}]}),
        (2, "recv", {"from": 1}), (2, "wait", {"req": 0}),
    ]), "2 1 wait 0", *["done from 1 tag 0 62 | over 5 ProcFailed"] * 2),
    # What was answered long ago decides, and nothing else that the rank holds tells of it.
    ("told_apart_by_answers", job_text(2, 1, [
        (0, "send", {"to": 1, "tag": 0, "body": "a"}), (0, "stop", {}),
        (1, "recv", {"from": 0}), (1, "wait", {"req": 0, "name": "got"}), (1, "recv", {"from": 0}), (1, "wait", {"req": 2}),
        (1, "revoke", {"if": {"step": "got", "is": ["over 5"]}}), (1, "dup", {}),
    ]), "1 5 dup comm 0", *["comm 1 | refused 6 Revoked"] * 2),
    # A step is played where one of its conditions holds, and by whole words.
    ("whole_words", job_text(2, 1, [
        (0, "dup", {}), (0, "failed", {"if": {"step": 0, "is": ["com"]}}),
        (0, "failed", {"if": [{"step": 0, "is": ["comm 12"]}, {"step": 1, "is": ["ranks", "skipped"]}]}),
        (0, "failed", {"if": {"step": 2, "is": ["ranks []"]}}),
    ]), "0 3 failed comm 0", *["ranks []"] * 2),
    # All conditions of an alternative have to hold, in whichever order they are answered.
    ("both_came", job_text(3, 1, [
        (0, "send", {"to": 2, "tag": 0, "body": "a"}), (0, "stop", {}), (1, "send", {"to": 2, "tag": 1, "body": "b"}), (1, "stop", {}),
        (2, "recv", {"from": 0}), (2, "recv", {"from": 1}), (2, "wait", {"req": 0, "name": "left"}), (2, "wait", {"req": 1, "name": "right"}),
        (2, "dup", {"if": {"all": [{"step": "left", "is": ["done"]}, {"step": "right", "not": ["over"]}]}}),
    ]), "2 4 dup comm 0", *["comm 1 | skipped"] * 2),
    # An answer `skipped` begins with none of the words.
    ("not_of_a_skipped", job_text(2, 1, [
        (0, "dup", {}), (0, "failed", {"if": {"step": 0, "not": ["refused", "comm"]}}),
        (0, "failed", {"if": [{"step": 0, "not": ["comm"]}, {"all": [{"step": 1, "not": ["ranks", "refused"]}, {"step": 0, "is": ["comm 1"]}]}]}),
    ]), "0 2 failed comm 0", *["ranks []"] * 2),
]

# Jobs of as many steps as there can be, and of few states.
LONG = [
    # A rank looks for failures all along, while another one stops.
    ("long_look", job_text(2, 1, [(1, "stop", {})] + [(0, "failed", {})] * 255)),
    # A rank sends to itself, again and again.
    ("long_talk", job_text(1, 2, [
        step for turn in range(85) for step in (
            (0, "send", {"to": 0, "tag": turn, "body": f"letter {turn}"}), (0, "recv", {}), (0, "wait", {"req": 3 * turn + 1}))
    ] + [(0, "stop", {})])),
]
