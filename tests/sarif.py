"""What a log of SARIF 2.1.0 (OASIS, errata 01) has to have, of the members that gqlcheck writes, and what GitHub's code
scanning wants besides ("SARIF support for code scanning"). Sections are the standard's."""

import re
from urllib.parse import urlsplit

# RFC 3986, appendix A: what a URI or a relative reference may have.
REFERENCE = re.compile(r"(?:[A-Za-z0-9._~:/?#\[\]@!$&'()*+,;=-]|%[0-9A-F]{2})+")
LEVELS = {"none", "note", "warning", "error"}


def faults(log):
    """What is wrong with a log, as sentences."""
    found = []

    def want(holds, sentence):
        if not holds:
            found.append(sentence)
        return holds

    def is_object(value, what, required, allowed):
        """Whether it is an object that has some members, and no others than are allowed."""
        if not want(isinstance(value, dict), f"{what} is no object"):
            return False
        want(required <= set(value), f"{what} lacks {sorted(required - set(value))}")
        want(set(value) <= required | allowed, f"{what} has {sorted(set(value) - required - allowed)}")
        return required <= set(value)

    def is_list(value, what):
        return want(isinstance(value, list), f"{what} is no list")

    def is_text(value, what):
        return want(isinstance(value, str) and value != "", f"{what} is no text")

    def is_number(value, what, least):
        return want(isinstance(value, int) and not isinstance(value, bool) and value >= least, f"{what} is {value!r}")

    def message(value, what):
        # 3.11.2: a message has `text`, or `id`, which no log here has
        if is_object(value, what, {"text"}, set()):
            is_text(value["text"], f"{what}.text")

    def region(value, what):
        # 3.30.2 and 3.30.3: a part of a text, and the same as bytes
        numbers = {"startLine": 1, "startColumn": 1, "endLine": 1, "endColumn": 1, "byteOffset": 0, "byteLength": 0}
        if is_object(value, what, set(numbers), set()):
            if all([is_number(value[name], f"{what}.{name}", least) for name, least in numbers.items()]):
                first = (value["startLine"], value["startColumn"])
                want(first <= (value["endLine"], value["endColumn"]), f"{what} ends before it begins")

    def location(value, what, others):
        # 3.28, 3.29 and 3.4
        if not is_object(value, what, {"physicalLocation"}, others):
            return
        place = value["physicalLocation"]
        if is_object(place, f"{what}.physicalLocation", {"artifactLocation", "region"}, set()):
            region(place["region"], f"{what}.region")
            file = place["artifactLocation"]
            if is_object(file, f"{what}.artifactLocation", {"uri"}, set()) and is_text(file["uri"], f"{what}.uri"):
                want(REFERENCE.fullmatch(file["uri"]), f"{what}.uri is {file['uri']}")
                # 3.4.3: an absolute one has its scheme, and one of a file no host
                want(urlsplit(file["uri"])[:2] in {("", ""), ("file", "")}, f"{what}.uri is {file['uri']}")
        if "message" in value:
            message(value["message"], f"{what}.message")

    def result(value, what, rules):
        # 3.27.10: without `rule`, `ruleId` is there. GitHub wants a location.
        required = {"ruleId", "level", "message", "locations"}
        if not is_object(value, what, required, {"relatedLocations"}):
            return
        want(value["ruleId"] in rules, f"{what}.ruleId is {value['ruleId']!r}")
        want(value["level"] in LEVELS, f"{what}.level is {value['level']!r}")
        message(value["message"], f"{what}.message")
        if is_list(value["locations"], f"{what}.locations"):
            want(len(value["locations"]) == 1, f"{what} has {len(value['locations'])} locations")
            for place in value["locations"]:
                location(place, f"{what}.locations", set())
        for place in value.get("relatedLocations", []):
            location(place, f"{what}.relatedLocations", {"message"})

    def rule(value, what):
        # 3.49.3, and what GitHub wants
        if is_object(value, what, {"id", "shortDescription", "fullDescription", "help"}, set()):
            is_text(value["id"], f"{what}.id")
            for name in ("shortDescription", "fullDescription", "help"):
                message(value[name], f"{what}.{name}")

    def run(value):
        # 3.14.6 and 3.14.23; 3.14.17: columns count code points
        if not is_object(value, "run", {"tool", "columnKind", "results", "invocations"}, set()):
            return
        want(value["columnKind"] == "unicodeCodePoints", "columnKind is another")
        rules = set()
        if is_object(value["tool"], "tool", {"driver"}, set()):
            driver = value["tool"]["driver"]
            # 3.19.8, 3.19.13 and 3.19.23
            if is_object(driver, "driver", {"name", "version", "rules"}, set()):
                want(driver["name"] == "gqlcheck", f"the tool is {driver['name']!r}")
                want(re.fullmatch(r"\d+\.\d+\.\d+", str(driver["version"])), f"the version is {driver['version']!r}")
                for number, one in enumerate(driver["rules"]):
                    rule(one, f"rules[{number}]")
                rules = {one.get("id") for one in driver["rules"]}
                want(len(rules) == len(driver["rules"]), "two rules have one id")
        if is_list(value["results"], "results"):
            for number, one in enumerate(value["results"]):
                result(one, f"results[{number}]", rules)
        if is_list(value["invocations"], "invocations"):
            for one in value["invocations"]:
                # 3.20.14
                if is_object(one, "invocation", {"executionSuccessful"}, set()):
                    want(isinstance(one["executionSuccessful"], bool), "executionSuccessful is no truth value")

    # 3.13.2 to 3.13.4
    if is_object(log, "log", {"version", "$schema", "runs"}, set()):
        want(log["version"] == "2.1.0", f"the version is {log['version']!r}")
        want(urlsplit(log["$schema"]).scheme == "https", f"$schema is {log['$schema']!r}")
        if is_list(log["runs"], "runs"):
            want(len(log["runs"]) == 1, "there is not one run")
            for one in log["runs"]:
                run(one)
    return found
