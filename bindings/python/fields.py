"""Lists the fields of the schema on standard input."""
import sys
import dumyroke

tree = dumyroke.parse(sys.stdin.buffer.read())
for error in tree.errors:
    print(error)
for definition in tree.document.definitions:
    for field in definition.find(dumyroke.nodes.FieldDefinition):
        print(f"{definition.name}.{field.name}")
