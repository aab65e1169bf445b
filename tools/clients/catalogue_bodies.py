"""Bodies of requests, and catalogues of a size."""
import json


def table(location, snapshot=1, content_id=None):
    content = {"type": "ICEBERG_TABLE", "metadataLocation": location, "snapshotId": snapshot}
    return content if content_id is None else {**content, "id": content_id}


def put(key, location="m", snapshot=1, content_id=None):
    return {"type": "PUT", "key": {"elements": [key]}, "content": table(location, snapshot, content_id)}


def commit(message, *operations):
    return json.dumps({"commitMeta": {"message": message}, "operations": list(operations)}).encode()


def large(size=200_000):
    """A commit of the table `large`, whose location has so many letters."""
    return commit("large", put("large", "x" * size))


def filling(count, key="t%04d"):
    """A commit of so many tables."""
    return commit("filled", *[put(key % number) for number in range(count)])
