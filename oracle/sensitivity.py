#!/usr/bin/env python3
"""Shows that what the program did, as it was recorded, tells the rules from wrong ones.

    sensitivity.py RECORD..

A RECORD is what `compare.py --record` or `corners.py --record` kept: requests with their
replies, journals, what `check`, `gc` and `migrate` told, starts. Each edit below makes one
rule wrong; the edited rules go through the records, and where all is as it was recorded the
edit isn't told, which is printed.
"""

import importlib
import os
import pickle
import shutil
import sys
import tempfile

RULES = ["catalogue", "instants", "journal", "policies", "reading", "replies"]

EDITS = [
    ("catalogue.py", "key=lambda h: (-self.generation(h), h))", "key=lambda h: (-self.generation(h), bytes(255 - b for b in h)))"),
    ("catalogue.py", "todo.append(commit.merge_parent)", "pass"),
    ("catalogue.py", "key=lambda h: (-self.generation(h), h))", "key=lambda h: (self.generation(h), h))"),
    ("catalogue.py", "if any(is_child(other, key) for other in result):", "if False:"),
    ("catalogue.py", "if any(is_child(other, key) for other in result):", "if any(is_child(other, key) for other in head):"),
    ("catalogue.py", "parent = result.get(key[:-1])", "parent = head.get(key[:-1])"),
    ("catalogue.py", "return \"NOT_A_NAMESPACE\"", "return None"),
    ("catalogue.py", "if mode == DROP or wanted == now:", "if mode == DROP:"),
    ("catalogue.py", "if mode == FORCE or now == base.get(key):", "if mode == FORCE:"),
    ("catalogue.py", "if mode == FORCE or now == base.get(key):", "if now == base.get(key):"),
    ("catalogue.py", "(entry is None or entry[0] != NAMESPACE)", "entry is None"),
    ("catalogue.py", "found = differs(expected.get(o.key), now)", "found = None"),
    ("catalogue.py", "if (o.content[\"type\"], o.given_id) not in renamed:", "if o.given_id not in {r[1] for r in renamed}:"),
    ("catalogue.py", "if (o.content[\"type\"], o.given_id) not in renamed:", "if True:"),
    ("catalogue.py", "elif now[1] != o.given_id:", "elif False:"),
    ("catalogue.py", "elif now[0] != o.content[\"type\"]:", "elif False:"),
    ("catalogue.py", "if o.what == \"DELETE\" and o.key in head}", "if o.what == \"DELETE\" and o.key in expected}"),
    ("catalogue.py", "return tuple(element.encode(\"utf-8\") for element in key)", "return key_path(key).encode(\"utf-8\")"),
    ("catalogue.py", "return tuple(element.encode(\"utf-8\") for element in key)",
     "return tuple(element.encode(\"utf-16-be\") for element in key)"),
    ("catalogue.py", "target = made.result", "target = made.result if not made.conflicts else target"),
    ("catalogue.py", "self.commits[h].meta, made.ops", "self.commits[hashes[0]].meta, made.ops"),
    ("catalogue.py", "generation = 1 + max(self.generation(head), self.generation(from_hash))", "generation = 1 + self.generation(head)"),
    ("catalogue.py", "if name == DEFAULT_BRANCH:\n            raise bad(\"default branch\")", "pass"),
    ("catalogue.py", "self.draft = max((e[2] for e in self.log), default=0)", "pass"),
    ("catalogue.py", "content_id = u64(draft) + u64(index)", "content_id = u64(draft) + u64(len(entries))"),
    ("catalogue.py", "if NO_ANCESTOR in hashes:\n            raise bad(\"not consecutive\")", "if NO_ANCESTOR in hashes:\n            raise not_found()"),
    ("catalogue.py", "chain = chain[:chain.index(until) + 1]", "chain = chain[:chain.index(until)]"),
    ("catalogue.py", "if until not in chain:\n                raise not_found()", "if until not in chain:\n                until = chain[-1]"),
    ("catalogue.py", "if not self.known(token_hash):", "if not self.on_chain(found, token_hash):"),
    ("catalogue.py", "if not as_result:", "if not as_result or dry_run:"),
    ("catalogue.py", "self.settled(made.conflicts, as_result, dry_run, [made], reply)", "self.settled(made.conflicts, as_result or dry_run, dry_run, [made], reply)"),
    ("catalogue.py", "items = [i for i in items if key_order(i[0]) > key_order(token[1])]", "items = [i for i in items if key_order(i[0]) >= key_order(token[1])]"),
    ("catalogue.py", "names = sorted(n for n in self.references if after is None or n > after)", "names = sorted((n for n in self.references if after is None or n > after), key=str.lower)"),
    ("catalogue.py", "raise conflicts_refusal([(None, \"UNEXPECTED_HASH\")])", "pass"),
    ("catalogue.py", "conflicts = [c for p in plans for c in p.conflicts]", "conflicts = sorted((c for p in plans for c in p.conflicts), key=lambda c: key_order(c[0]))"),
    ("catalogue.py", "far = cutoff[0] == COMMITS and index >= cutoff[1]", "far = cutoff[0] == COMMITS and index > cutoff[1]"),
    ("catalogue.py", "self.commits[h].time < cutoff[1]", "self.commits[h].time <= cutoff[1]"),
    ("catalogue.py", "if index > 0 and (far or old):", "if far or old:"),
    ("catalogue.py", "if number >= place:", "if number > place:"),
    ("catalogue.py", "if number >= place:", "if True:"),
    ("catalogue.py", "for heads in self.states_since(opened)", "for heads in self.states_since(self.place)"),
    ("catalogue.py", "for h in self.kept(cutoff, head)} | set(commits)", "for h in self.kept(cutoff, head)}"),
    ("catalogue.py", "return set(contents).union(", "return set().union("),
    ("catalogue.py", "if matches(pattern, name)), default)", "if matches(pattern, name)), (ALL,))"),
    ("catalogue.py", "next((cutoff for pattern, cutoff in pairs", "next((cutoff for pattern, cutoff in pairs[::-1]"),
    ("catalogue.py", "return name.startswith(pattern[:-1])", "return name.startswith(pattern[:-1]) and name != pattern[:-1]"),
    ("catalogue.py", "        self.need_contents(self.entries(target).items())\n        self.references", "        self.references"),
    ("catalogue.py", "        self.need_contents(self.entries(target).items())\n        own", "        own"),
    ("catalogue.py", "        self.need_contents(o for p in plans for o in p.ops)\n", ""),
    ("catalogue.py", "self.need_contents(o for p in plans for o in p.ops)\n        return dry_run or", "if dry_run:\n            return True\n        self.need_contents(o for p in plans for o in p.ops)\n        return"),
    ("catalogue.py", "for key, _ in gone}, key=key_order)", "for key, _ in gone}, key=key_order, reverse=True)"),
    ("catalogue.py", "(keys, self.place)", "(keys, self.place + 1)"),
    ("catalogue.py", "if back >= len(chain):", "if back >= len(chain) - 1:"),
    ("catalogue.py", "return chain[back]", "return chain[max(back - 1, 0)]"),
    ("catalogue.py", "if self.format == 1:", "if False:"),
    ("replies.py", "\"place\": self.catalogue.checkpoint()", "\"place\": self.catalogue.checkpoint() + 1"),
    ("replies.py", "len(digits) > 10 or", "len(digits) > 11 or"),
    ("replies.py", "int(digits) > MOST_BACK", "int(digits) >= MOST_BACK"),
    ("replies.py", "read_reference(place[0], True) if changing else read_position(place[0])", "read_position(place[0])[:2 if changing else 3]"),
    ("replies.py", "and (front is None or k[:len(front)] == front)", "and (front is None or k[:len(front)] == front and k != front)"),
    ("replies.py", "and (front is None or k[:len(front)] == front)", "and (front is None or key_path(k).startswith(key_path(front)))"),
    ("replies.py", "key_order(k) <= key_order(greatest)", "key_order(k) < key_order(greatest)"),
    ("replies.py", "key_order(k) >= key_order(least)", "key_order(k) > key_order(least)"),
    ("replies.py", "need(tuple(o.content[\"elements\"]) == o.key)", "pass"),
    ("replies.py", "need(len(set(given)) == len(given))", "pass"),
    ("replies.py", "need(len({o.key for o in operations}) == len(operations))", "pass"),
    ("replies.py", "need(item.get(\"expectedTargetContent\") is None and item.get(\"resolvedContent\") is None)", "pass"),
    ("replies.py", "need(key not in found)", "pass"),
    ("replies.py", "need(1 <= len(hashes) <= 100)", "need(1 <= len(hashes))"),
    ("replies.py", "need(isinstance(v, int) and not isinstance(v, bool))", "need(isinstance(v, (int, float)) and not isinstance(v, bool)); v = int(v)"),
    ("replies.py", "return next((v for n, v in self.pairs if n == name), None)", "return ([None] + [v for n, v in self.pairs if n == name])[-1]"),
    ("replies.py", "value.lower() != \"identity\"", "value.lower() not in (\"identity\", \"\")"),
    ("replies.py", "p.replace(b\"+\", b\" \")", "p"),
    ("replies.py", "return 200 if n in (None, 0) else min(n, 1000)", "return 200 if n is None else min(n, 1000) or 1000"),
    ("replies.py", "if name == \"-\":", "if name in (\"-\", \"\"):"),
    ("replies.py", "meta[\"message\"] = \"Merge %s into %s\" % (from_name, where[0])", "meta[\"message\"] = \"\""),
    ("replies.py", "e.replace(\"\\x1d\", \".\").replace(\"\\x00\", \".\")", "e.replace(\"\\x1d\", \".\")"),
    ("replies.py", "s[-1] not in \"./\"", "s[-1] not in \".\""),
    ("replies.py", "a_cutoff(\"NONE\" if default is None", "a_cutoff(\"1\" if default is None"),
    ("replies.py", "return is_name(front) or is_name(front + \"a\") if", "return is_name(front) if"),
    ("replies.py", "    need_patterns(pairs)\n    return default, pairs", "    return default, pairs"),
    ("policies.py", "text.upper() == \"NONE\"", "text == \"NONE\""),
    ("policies.py", "if 1 <= int(text) <= MOST_COMMITS", "if int(text) <= MOST_COMMITS"),
    ("policies.py", "if 1 <= int(text) <= MOST_COMMITS", "if 1 <= int(text)"),
    ("policies.py", "[0-9]{1,10}", "[0-9]{1,11}"),
    ("policies.py", " or name in \"YM\" and number", ""),
    ("policies.py", "if unit <= last:", "if unit == last:"),
    ("policies.py", "or ended or", "or"),
    ("policies.py", "(not times if clock else not dates)", "not dates and not times"),
    ("policies.py", "max(moment - given[1], 0)", "moment"),
    ("policies.py", "if text.startswith(\"P\"):", "if text[:1] in \"Pp\":"),
    ("instants.py", "second = min(self.field(0, 60), 59)", "second = self.field(0, 59)"),
    ("instants.py", "nanos // 1000 if 0 <= nanos", "(nanos + 500) // 1000 if 0 <= nanos"),
    # Limits.
    ("catalogue.py", "if self.place >= LIMITS[\"Log\"]:", "if self.place > LIMITS[\"Log\"]:"),
    ("catalogue.py", "if self.place >= LIMITS[\"Log\"]:", "if False:"),
    ("catalogue.py", "if self.draft >= LIMITS[\"Drafts\"]:", "if self.draft > LIMITS[\"Drafts\"]:"),
    ("catalogue.py", "if self.draft >= LIMITS[\"Drafts\"]:", "if self.draft >= LIMITS[\"Drafts\"] - 1:"),
    ("catalogue.py", "if len(self.references) >= LIMITS[\"References\"]:", "if len(self.references) > LIMITS[\"References\"]:"),
    ("catalogue.py", "        self.need_entry()\n        if len(self.commits)", "        if len(self.commits)"),
    ("catalogue.py", "        self.need_entry()\n        self.need_contents(self.entries(target).items())", "        self.need_contents(self.entries(target).items())"),
    ("catalogue.py", "        self.need_entry()\n        if len(commits)", "        if len(commits)"),
    ("catalogue.py", "        target = next(steps)\n        self.need_entry()", "        target = next(steps)"),
    ("catalogue.py", "            raise bad(\"other type\")\n        self.need_entry()", "            raise bad(\"other type\")"),
    ("catalogue.py", "        self.room([made], head)\n", ""),
    ("catalogue.py", "        self.room(plans, head)\n", ""),
    ("catalogue.py", "        draft = self.take_draft()\n        base =", "        self.need_entry()\n        draft = self.take_draft()\n        base ="),
    ("catalogue.py", "(which, LIMITS[which])", "(which, LIMITS[which] - 1)"),
    ("catalogue.py", "        if name in self.references:\n            raise Refused(\"REFERENCE_ALREADY_EXISTS\"", "        self.need_entry()\n        if name in self.references:\n            raise Refused(\"REFERENCE_ALREADY_EXISTS\""),
    ("replies.py", "return b\"nessie: limit %d\\n\" % r.details[1], 9", "return b\"nessie: usage\\n\", 1"),
    # Drafts and ids.
    ("catalogue.py", "self.draft = max(self.draft, self.taken)", "pass"),
    ("catalogue.py", "self.taken = self.draft = draft", "self.draft = draft"),
    ("catalogue.py", "draft > self.taken or draft in self.left", "draft > self.taken"),
    ("catalogue.py", "(draft > self.taken or draft in self.left) and all(", "all("),
    ("catalogue.py", "and all(draft != e[2] for e in self.log)", ""),
    ("catalogue.py", "u64(draft) + u64(index)", "u64(draft) + u64(index + 1)"),
    ("catalogue.py", "        self.hash_of_path(head, path_hash)\n        if not self.on_chain(source_head, from_hash):\n            raise not_found()\n        draft = self.take_draft()", "        draft = self.take_draft()\n        self.hash_of_path(head, path_hash)\n        if not self.on_chain(source_head, from_hash):\n            raise not_found()"),
    # Checkpoints, formats and what a disk keeps.
    ("catalogue.py", "self.bases.append(len(self.log))", "pass"),
    ("catalogue.py", "        return self.place\n\n    # Logs.", "        return len(self.log)\n\n    # Logs."),
    ("catalogue.py", "self.first = self.place = place", "self.place = place"),
    ("catalogue.py", "self.starts = {name: head for name, _, head in references}", "self.starts = {}"),
    ("catalogue.py", "out = [dict(heads)] if place == self.first else []", "out = []"),
    ("catalogue.py", "return self.is_linked() and", "return"),
    ("catalogue.py", "and self.is_whole() and", "and"),
    ("catalogue.py", "if commit_hash in generations or not all(h in generations for h in above):", "if commit_hash in generations:"),
    ("catalogue.py", "            if commit.generation != generations[commit_hash]:\n                return False\n", ""),
    ("catalogue.py", "return all(self.known(head) for head in self.starts.values())", "return True"),
    ("catalogue.py", "if self.references.get(DEFAULT_BRANCH, [TAG])[0] != BRANCH:", "if False:"),
    ("catalogue.py", "if any(len(k) > 1 and now.get(k[:-1], (None,))[0] != NAMESPACE for k in now):", "if False:"),
    ("catalogue.py", "return all(self.visible(head) <= set(self.contents) for head in self.starts.values())", "return True"),
    ("catalogue.py", "self.first <= opened <= self.place", "opened <= self.place"),
    ("catalogue.py", "self.first <= opened <= self.place", "self.first <= opened"),
    ("catalogue.py", "and all(self.known(h) for h in commits)", ""),
    ("catalogue.py", "and len(policy[1]) <= MOST_PATTERNS)", ")"),
    ("journal.py", "draft = max([c.taken] + [e[2] for e in c.log])", "draft = c.draft"),
    ("journal.py", "named = sorted(c.references.items(), key=lambda r: r[0].encode(\"utf-8\"))", "named = list(c.references.items())"),
    ("journal.py", "listed(c.commits.values(),", "listed(sorted(c.commits.values(), key=lambda commit: commit.id()),"),
    ("journal.py", "listed(sorted(c.contents),", "listed(c.contents,"),
    ("journal.py", "u8(CHECKPOINT) + u32(c.place) + u64(draft)", "u8(CHECKPOINT) + u32(c.place) + u64(draft + 1)"),
    ("journal.py", "return file[:15] + HEADER[15:] + file[16:] if", "return file if"),
    ("journal.py", "MODES = {NORMAL: 0, FORCE: 1, DROP: 2}", "MODES = {NORMAL: 0, FORCE: 2, DROP: 1}"),
    ("journal.py", "pairs = sorted(of_keys.items(), key=lambda p: key_order(p[0]))", "pairs = list(of_keys.items())"),
    ("journal.py", "fresh = u8(1 if o.given_id is None else 0)", "fresh = u8(1)"),
    ("journal.py", "u32(opened) + policy_bytes(policy) + listed(commits, plain) + listed(contents, plain)", "u32(opened) + policy_bytes(policy) + listed(contents, plain) + listed(commits, plain)"),
    ("reading.py", "behind = bases[-1] + 1 if bases else 0", "behind = bases[0] + 1 if bases else 0"),
    ("reading.py", "for gate, spelled in found[behind:]:", "for gate, spelled in found:"),
    ("reading.py", "and file[15] == HEADER[15]]", "]"),
    ("reading.py", "need(all(0 < n < draft for n in left))", ""),
    ("reading.py", "raise Unopened(b\"illegal entry %d\" % c.first)", "raise Unopened(b\"illegal entry %d\" % (c.first + 1))"),
    ("reading.py", "illegal entry %d\" % (c.first + number + 1))", "illegal entry %d\" % (number + 1))"),
    ("reading.py", "if len(c.commits) < len(base[4]) or not c.may_start():", "if not c.may_start():"),
    ("reading.py", "if len(c.commits) < len(base[4]) or not c.may_start():", "if False:"),
    ("reading.py", "or not c.is_new(draft)", ""),
    ("reading.py", "if not is_well_made(what, command) or", "if"),
    ("reading.py", "        if [payload(e, moment) for e in c.log[number:]] != [spelled]:\n            raise illegal\n", ""),
    ("reading.py", "    if broken is not None:\n        raise Unopened(b\"damaged at %d\" % broken)\n", ""),
    ("reading.py", "need(all(a < b for a, b in zip(places, places[1:])))", ""),
    ("reading.py", "need((draft > 0) == (what in (\"commit\", \"merge\", \"transplant\")))", ""),
    ("reading.py", "need(not fresh or content_id == fresh_id)", ""),
    ("reading.py", "need(kind == SINCE or bound > 0)", ""),
    ("reading.py", "need(n <= GREATEST)", ""),
    ("reading.py", "need(name is not None or commit_hash is not None)", ""),
    ("reading.py", "need(is_pattern(s))", ""),
    ("reading.py", "if any(file[12:15]):", "if False:"),
    ("reading.py", "if version != 1:", "if False:"),
    ("replies.py", "if size > self.room:", "if size >= self.room:"),
    ("replies.py", "size = sum(5 + len(s) for s in spelled)", "size = sum(4 + len(s) for s in spelled)"),
    ("replies.py", "            c.undo(mark)\n", ""),
    ("replies.py", "            self.faults = 1\n", ""),
    ("replies.py", "\"commit\", \"merge\", \"transplant\", \"sweep\", \"checkpoint\")\n        place", "\"commit\", \"merge\", \"transplant\", \"sweep\")\n        place"),
    ("replies.py", "if self.faults is not None and (changing", "if self.faults is not None and (False"),
    ("replies.py", "or self.route == \"trees\" and method == \"POST\"):", "):"),
    # Pages and tokens.
    ("catalogue.py", "(names[limit - 1] if len(names) > limit else None)", "(names[limit - 1] if len(names) >= limit else None)"),
    ("catalogue.py", "(names[limit - 1] if len(names) > limit else None)", "(names[limit] if len(names) > limit else None)"),
    ("catalogue.py", "if after is None or n > after)", "if after is None or n >= after)"),
    ("catalogue.py", "more = (found, page[-1][0]) if len(items) > limit_ else None", "more = (found, items[limit_][0]) if len(items) > limit_ else None"),
    ("catalogue.py", "more = (found, page[-1][0]) if len(items) > limit_ else None", "more = (found, page[-1][0]) if len(items) >= limit_ else None"),
    ("catalogue.py", "(chain[limit_] if len(chain) > limit_ else None)", "(chain[limit_ - 1] if len(chain) > limit_ else None)"),
    ("catalogue.py", "        found = self.resolve(where)\n        if token_hash is not None:", "        found = self.resolve(where) if token_hash is None else None\n        if token_hash is not None:"),
    ("catalogue.py", "            found = token_hash\n", ""),
    ("catalogue.py", "return self.shown(where[0], found), page, more", "return self.shown(where[0], self.resolve(where)), page, more"),
    ("catalogue.py", "chain = [h for h in chain if h != NO_ANCESTOR]", "chain = list(chain)"),
    ("replies.py", "lambda v: v[2:] if v[:2] == \"r.\" and is_name(v[2:]) else None", "lambda v: v[2:] if v[:2] == \"r.\" else None"),
    ("replies.py", "if v[:2] == \"r.\" and is_name", "if v[1:2] == \".\" and is_name"),
    ("replies.py", "if len(s) < 68 or s[:2] != \"e.\" or s[66] != \".\":", "if len(s) < 68 or s[66] != \".\":"),
    ("replies.py", "if len(s) < 68 or s[:2] != \"e.\" or s[66] != \".\":", "if len(s) < 67 or s[:2] != \"e.\":"),
    ("replies.py", "if h is None or key is None else (h, key)", "if h is None else (h, key or (\"\",))"),
    ("replies.py", "lambda v: read_hash(v[2:]) if v[:2] == \"h.\" else None", "lambda v: read_hash(v[2:])"),
    ("replies.py", "lambda m: \"e.%s.%s\" % (m[0].hex(), key_path(m[1]))", "lambda m: \"e.%s.%s\" % (m[0].hex(), \".\".join(m[1]))"),
    ("replies.py", "v if v in (\"MINIMAL\", \"ALL\") else None", "v"),
    ("replies.py", "and (not keys or k in keys))", ")"),
    # Merges, transplants, key modes.
    ("replies.py", "default = NORMAL if default is None else a_mode(default)", "default = NORMAL if default is None else FORCE"),
    ("replies.py", "default = NORMAL if default is None else a_mode(default)", "default = FORCE if default is None else a_mode(default)"),
    ("replies.py", "                lambda k: of_keys.get(k, default), dry_run", "                lambda k: default, dry_run"),
    ("replies.py", "where[0], where[1], from_name, hashes, lambda k: of_keys.get(k, default),", "where[0], where[1], from_name, hashes, lambda k: default,"),
    ("replies.py", "need(a_text(v) in (NORMAL, FORCE, DROP))", "need(a_text(v).upper() in (NORMAL, FORCE, DROP)); v = v.upper()"),
    ("catalogue.py", "    for key, entry in ops:\n        conflict = namespace", "    for key, entry in [o for o in ops if mode_of(o[0]) == NORMAL]:\n        conflict = namespace"),
    ("catalogue.py", "    result = applied(target, ops)\n    for key, entry in ops:", "    result = applied(target, ops if not found else [])\n    for key, entry in ops:"),
    ("catalogue.py", "found[key] = differs(base.get(key), now)", "found[key] = differs(wanted, now)"),
    ("catalogue.py", "(key, mode_of(key), found.get(key)) for key in changed]", "(key, mode_of(key), found.get(key)) for key in changed if mode_of(key) != DROP]"),
    ("catalogue.py", "if base.get(k) != source.get(k)),", "if base.get(k) != source.get(k) and source.get(k) != target.get(k)),"),
    ("catalogue.py", "            if made.ops:\n                generation += 1", "            if made.ops or True:\n                generation += 1"),
    ("catalogue.py", "return dry_run or not any(p.ops for p in plans)", "return dry_run"),
    ("catalogue.py", "            reply[\"successful\"] = False\n", ""),
    ("catalogue.py", "        if not self.on_chain(source_head, from_hash):\n            raise not_found()\n        draft", "        if not self.known(from_hash):\n            raise not_found()\n        draft"),
    ("catalogue.py", "        source_head = self.reference(from_name)[1]\n        self.branch(name)", "        self.branch(name)\n        source_head = self.reference(from_name)[1]"),
    ("catalogue.py", "if self.commits[after].parent != before:", "if before not in self.ancestors(after):"),
    ("catalogue.py", "commit = Commit(head, from_hash, generation, moment, meta, made.ops)", "commit = Commit(head, None, generation, moment, meta, made.ops)"),
    ("catalogue.py", "commit = Commit(parent, None, generation, moment, self.commits[h].meta, made.ops)", "commit = Commit(parent, h, generation, moment, self.commits[h].meta, made.ops)"),
    # Namespaces and conflicts.
    ("catalogue.py", "if entry is not None and len(key) >= 2:", "if entry is not None and len(key) >= 3:"),
    ("catalogue.py", "return \"NAMESPACE_ABSENT\"", "return None"),
    ("catalogue.py", "return len(key) > len(of) and key[:len(of)] == of", "return len(key) == len(of) + 1 and key[:len(of)] == of"),
    ("catalogue.py", "        if found is None and o.what != \"UNCHANGED\":", "        if o.what != \"UNCHANGED\":"),
    ("catalogue.py", "        if found is None and o.what == \"DELETE\" and now is None:", "        if False:"),
    ("catalogue.py", "    if before[0] != now[0]:\n        return \"PAYLOAD_DIFFERS\"\n", ""),
    ("catalogue.py", "    if before[1] != now[1]:\n        return \"CONTENT_ID_DIFFERS\"\n", ""),
    ("catalogue.py", "for o in sorted(operations, key=lambda o: key_order(o.key)):", "for o in operations:"),
    ("catalogue.py", "        then = now if expected is None else self.entries(expected)", "        then = now"),
    ("catalogue.py", "if o.given_id is None:\n                    added.append", "if True:\n                    added.append"),
    ("catalogue.py", "        if expected is not None and not self.on_chain(head, expected):\n            raise not_found()\n        draft", "        if expected is not None and not self.known(expected):\n            raise not_found()\n        draft"),
    # References.
    ("catalogue.py", "        if name is not None and kind is not None and self.references[name][0] != kind:", "        if False:"),
    ("catalogue.py", "        if commit_hash is not None and not self.on_chain(head, commit_hash):\n                raise not_found()", "        if commit_hash is not None and not self.known(commit_hash):\n                raise not_found()"),
    ("catalogue.py", "        if name is None:\n            if not self.known(commit_hash):\n                raise not_found()\n            yield", "        if name is None:\n            yield"),
    ("catalogue.py", "        if name == DEFAULT_BRANCH:\n            raise bad(\"default branch\")\n        if kind is not None and own[0] != kind:\n            raise bad(\"other type\")", "        if kind is not None and own[0] != kind:\n            raise bad(\"other type\")\n        if name == DEFAULT_BRANCH:\n            raise bad(\"default branch\")"),
    # Collections.
    ("catalogue.py", "self.contents = {h: c for h, c in self.contents.items() if h in saved}", "pass"),
    ("catalogue.py", "            if index > 0 and (far or old):\n                break\n            out.append(h)", "            if index == 0 or not (far or old):\n                out.append(h)"),
    ("catalogue.py", "            elif what != \"sweep\":\n                heads[command[0]] = head", "            elif what not in (\"sweep\", \"assign\"):\n                heads[command[0]] = head"),
    ("catalogue.py", "        return len(self.contents), before - len(self.contents)", "        return len(saved), before - len(self.contents)"),
    ("catalogue.py", "entries[k][2] in self.contents]", "True]"),
    ("catalogue.py", "raise Refused(\"CONTENT_NOT_FOUND\", \"content expired\")", "raise Refused(\"CONTENT_NOT_FOUND\", \"content absent\")"),
    ("replies.py", "        if kept is not None:\n            out[\"content\"]", "        if True:\n            out[\"content\"]"),
    ("replies.py", "return is_name(front) or is_name(front + \"a\") if", "return True if"),
    ("policies.py", "max(moment - given[1], 0)", "max(moment - given[1], 1)"),
    # The order of refusals by the bytes.
    ("replies.py", "        query = Query(query)\n", "        an_object(read_json(body)) if method in (\"POST\", \"PUT\") and self.route != \"checkpoint\" else None\n        query = Query(query)\n"),
    ("replies.py", "        if method not in self.methods:\n            raise Refused(\"WRONG_METHOD\", \"method not allowed\")\n", ""),
    ("replies.py", "if r.kind == \"WRONG_METHOD\":\n                allow", "if False:\n                allow"),
    ("replies.py", "            if self.on_state:\n                place = c.place\n", "            place = c.place\n"),
    ("replies.py", "status, place = 200, c.place", "status, place = 200, None"),
]


class Replay:
    """The rules, as imported now, on one recorded session; each method takes a note, and tells whether they say the same."""

    def __init__(self, modules):
        self.catalogue, _, self.journal, _, self.reading, self.replies = modules
        self.begin(self.catalogue.Catalogue())

    def begin(self, c):
        self.side = self.replies.Session(c)
        self.bases = [(0, self.journal.checkpoint(c))] if c.bases else []

    def begun(self, file):
        """Another journal, which may begin at a checkpoint and have entries behind it."""
        c = self.reading.opened(file)
        c.opened()
        c.format = 2 if file[15] else 1
        c.bases = [0] if c.first else []
        self.begin(c)
        return True

    def opened(self):
        self.side.catalogue.opened()
        return True

    def format(self, number):
        self.side.catalogue.format = number
        return True

    def room(self, size):
        self.side.room, self.side.faults = size, None
        return True

    def asked(self, method, target, fields, body, moment, close, got):
        c = self.side.catalogue
        same = self.side.answer(method, target, fields, body, moment, close) == got
        if len(c.bases) > len(self.bases):
            self.bases.append((len(c.log), self.journal.checkpoint(c)))
        return same

    def gc(self, words, moment, told):
        return self.replies.collected(self.side.catalogue, words, moment) == told

    def sweep(self, command, moment, told):
        return b" contents %d " % self.side.catalogue.sweep(*command, moment)[0] in told

    def journal_bytes(self, found):
        c = self.side.catalogue
        header = self.journal.HEADER if c.format == 2 else self.journal.OLD
        return self.journal.compared(found, c.log, self.bases, header) is None

    def file(self, file, line):
        return self.reading.told(file) == line

    def migrated(self, found, left):
        return self.journal.newer(found) == left


def first_difference(recorded):
    """The first note of the records that the rules, as imported now, don't tell, counted from 1."""
    for name in RULES:
        sys.modules.pop(name, None)
    modules = [importlib.import_module(name) for name in RULES]
    count = 0
    for session in recorded:
        replay = Replay(modules)
        for what, *note in session:
            count += 1
            try:
                if not getattr(replay, "journal_bytes" if what == "journal" else what)(*note):
                    return "%d, %s" % (count, what)
            except Exception as e:
                return "%d, %s, %s" % (count, what, type(e).__name__)
    return None


def difference_of(name, old, new, recorded):
    """The first difference where this text of a file is another; None where the file has it not once or more."""
    here = os.path.dirname(os.path.abspath(__file__))
    with tempfile.TemporaryDirectory() as folder:
        for rules in RULES:
            shutil.copy(os.path.join(here, rules + ".py"), folder)
        path = os.path.join(folder, name)
        with open(path) as f:
            text = f.read()
        if old not in text:
            return "NO SUCH TEXT"
        with open(path, "w") as f:
            f.write(text.replace(old, new) if old else text)
        sys.path.insert(0, folder)
        importlib.invalidate_caches()
        try:
            return first_difference(recorded)
        finally:
            sys.path.pop(0)


def main():
    recorded = []
    for path in sys.argv[1:]:
        with open(path, "rb") as f:
            recorded += pickle.load(f)
    here = os.path.dirname(os.path.abspath(__file__))
    sys.dont_write_bytecode = True
    sys.path = [p for p in sys.path if os.path.abspath(p or ".") != here]
    found = difference_of("catalogue.py", "", "", recorded)
    print("unchanged rules: %s, %d notes of %d sessions" % (
        "no difference" if found is None else "DIFFERENCE at " + found, sum(map(len, recorded)), len(recorded)))
    failed = found is not None
    untold = 0
    for name, old, new in EDITS:
        found = difference_of(name, old, new, recorded)
        if found == "NO SUCH TEXT":
            print("NO SUCH TEXT: %s: %s" % (name, old))
        elif found is None:
            print("NOT TOLD: %s: %s -> %s" % (name, old, new))
        else:
            print("told at %s: %s" % (found, new.strip()[:90]))
        untold += found in (None, "NO SUCH TEXT")
    print("%d edits, %d not told" % (len(EDITS), untold))
    return 1 if untold or failed else 0


if __name__ == "__main__":
    sys.exit(main())
