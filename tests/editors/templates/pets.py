# gql("{
"""gql('{')"""
query = gql("""query Find { pet(name: "é ${") { ...parts } }""")
parts = gql('fragment parts on Pet { name(of: \'😀\') }').replace("gql('{')", 'x')  # gql('''{
other = {'a': gql( r'''query Other { pet(name: "\n") }''' )}
