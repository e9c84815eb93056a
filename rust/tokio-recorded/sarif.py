"""What is wrong with a log of SARIF 2.1.0, by the standard's own schema, and by what code hosts require beside it: a place of each result."""
import functools
import json
import os

from jsonschema import Draft4Validator

SCHEMA = os.path.join(os.path.dirname(os.path.realpath(__file__)), "sarif-schema-2.1.0.json")


@functools.cache
def validator():
    with open(SCHEMA, encoding="utf-8") as file:
        return Draft4Validator(json.load(file))


def of_result(result, rules, bases):
    """What a code host refuses in a result."""
    if not result.get("locations"):
        yield f"{result['ruleId']} has no place"
    if rules[result["ruleIndex"]] != result["ruleId"]:
        yield f"{result['ruleId']} isn't rule {result['ruleIndex']}"
    for location in result.get("locations", []):
        artifact = location["physicalLocation"]["artifactLocation"]
        if not artifact["uri"]:
            yield f"{result['ruleId']} is in no file"
        if artifact.get("uriBaseId", bases[0] if bases else None) not in [*bases, None]:
            yield f"no base {artifact['uriBaseId']}"


def faults(log):
    """The faults of a log, none if it is one."""
    found = [f"{list(fault.absolute_path)}: {fault.message}" for fault in validator().iter_errors(log)]
    if found:
        return found
    for run in log["runs"]:
        rules = [rule["id"] for rule in run["tool"]["driver"]["rules"]]
        bases = list(run.get("originalUriBaseIds", {}))
        found += [fault for result in run["results"] for fault in of_result(result, rules, bases)]
    return found
