"""The rules of section 5 that need no schema, by the names that graphql-core has for them. `RULES` of tests/queries has
those that need one."""

WITHOUT_SCHEMA = [
    "ExecutableDefinitions", "UniqueOperationNames", "LoneAnonymousOperation", "UniqueArgumentNames",
    "UniqueFragmentNames", "NoUnusedFragments", "KnownFragmentNames", "NoFragmentCycles", "UniqueInputFieldNames",
    "UniqueVariableNames", "NoUndefinedVariables", "NoUnusedVariables",
]
