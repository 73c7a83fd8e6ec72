"""The options of google/api that real services name beside their rules, reduced to the extensions themselves, for a folder of
imports: client.proto, field_behavior.proto and resource.proto of the repository googleapis.
"""

HEAD = 'syntax = "proto3"; package google.api; import "google/protobuf/descriptor.proto";'
BEHAVIORS = "FIELD_BEHAVIOR_UNSPECIFIED OPTIONAL REQUIRED OUTPUT_ONLY INPUT_ONLY IMMUTABLE UNORDERED_LIST".split()
TEXTS = {
    "client.proto": [
        "extend google.protobuf.MethodOptions { repeated string method_signature = 1051; }",
        "extend google.protobuf.ServiceOptions { string default_host = 1049; string oauth_scopes = 1050; }",
    ],
    "field_behavior.proto": [
        "extend google.protobuf.FieldOptions { repeated FieldBehavior field_behavior = 1052; }",
        f"enum FieldBehavior {{ {' '.join(f'{name} = {number};' for number, name in enumerate(BEHAVIORS))} }}",
    ],
    "resource.proto": [
        "extend google.protobuf.FieldOptions { ResourceReference resource_reference = 1055; }",
        "extend google.protobuf.FileOptions { repeated ResourceDescriptor resource_definition = 1053; }",
        "extend google.protobuf.MessageOptions { ResourceDescriptor resource = 1053; }",
        "message ResourceReference { string type = 1; string child_type = 2; }",
        "message ResourceDescriptor { string type = 1; repeated string pattern = 2; string name_field = 3; string plural = 5; string singular = 6; }",
    ],
}


def write_options(folder):
    """Writes these files under a folder."""
    (folder / "google/api").mkdir(parents=True)
    for name, lines in TEXTS.items():
        (folder / "google/api" / name).write_text("\n".join([HEAD, *lines, ""]))
