#!/usr/bin/env python3
"""Prints a GraphQL document of about N bytes (5,000,000 unless given): text.py queries|orders|schema|described [N].

queries: operations and fragments alone. orders: operations with many arguments and strings. schema: type definitions
with descriptions, comments, arguments and directives. described: definitions of which half of the text is descriptions,
as schemas for the public have them."""
import sys

QUERIES = '''query Introspection_%(i)d {
  __schema {
    queryType {
      name
    }
    mutationType {
      name
    }
    types {
      ...FullType_%(i)d
    }
    directives {
      name
      description
      locations
      args {
        ...InputValue_%(i)d
      }
    }
  }
}

fragment FullType_%(i)d on __Type {
  kind
  name
  description
  fields(includeDeprecated: true) {
    name
    description
    args {
      ...InputValue_%(i)d
    }
    type {
      ...TypeRef_%(i)d
    }
    isDeprecated
    deprecationReason
  }
  enumValues(includeDeprecated: true) {
    name
    description
    isDeprecated
  }
  possibleTypes {
    ...TypeRef_%(i)d
  }
}

fragment InputValue_%(i)d on __InputValue {
  name
  description
  type {
    ...TypeRef_%(i)d
  }
  defaultValue
}

fragment TypeRef_%(i)d on __Type {
  kind
  name
  ofType {
    kind
    name
    ofType {
      kind
      name
      ofType {
        kind
        name
        ofType {
          kind
          name
          ofType {
            kind
            name
            ofType {
              kind
              name
              ofType {
                kind
                name
              }
            }
          }
        }
      }
    }
  }
}

# What is in a basket, and what it costs. The page begins behind the product whose cursor is given, or with the first one; a price
# outside the range is left out. Notes are shown to those who are signed in.
#
# What the seller has told of a product comes as one text, without markup. It may be empty, and it is never longer than 4,000
# characters. Where a translation is there, it is in the language that the request asks for, else in that of the shop.
query Basket_%(i)d($first: Int = 20, $after: String, $with: [ID!] = ["a1", "b2"], $price: Range) @cached(seconds: 60) {
  basket(first: $first, after: $after) {
    edges {
      node {
        ... on Product_%(i)d @include(if: $detailed) {
          id, sku(version: 2), total: price(factor: -1.5, in: EUR)
          note: text(of: """the first
          line of it""", or: "an \\"escaped\\" one")
        }
        ...InputValue_%(i)d @skip(unless: false)
      }
    }
    pageInfo { hasNextPage endCursor }
  }
}

mutation Like_%(i)d {
  like(story: {id: 123, tags: ["new", "short"], at: {x: 1.0e3, y: null}}) @defer {
    story { id likes(first: 10) { count } }
  }
}

'''

ORDERS = '''# What is ordered, number %(i)d.
mutation Order_%(i)d($first: Int = 20, $note: String) {
  order(items: [{ sku: "a-%(i)d", count: 2 }, { sku: "b\\u0020%(i)d", count: 1 }], note: $note) @traced(by: "shop \\"north\\"") {
    id
    lines(first: $first, after: "Y3Vyc29y") { edges { node { ...on Product { name, total: price(factor: -1.5, in: EUR) } } } }
    message(text: """
      Thank you.

        It comes on Monday.
      """)
  }
}

'''

SCHEMA = '''# What is sold, number %(i)d.
"""
A product of the shop.

Its price is in the smallest unit of the currency.
"""
type Product_%(i)d implements Node & Priced @key(fields: "id sku") {
  "What it is sold under"
  id: ID!
  sku(version: Int = 3, locale: String = "en-\\u0047B"): [String!]!
  price(in: Currency_%(i)d = EUR, factor: Float = 1.25e-2): Int @deprecated(reason: "see \\"amount\\"")
  seller: Seller
  related(first: Int, after: String): [Product_%(i)d]
}

"""
The currencies in which one can pay.
"""
enum Currency_%(i)d {
  "The currency of the European Union"
  EUR
  "The currency of the United Kingdom"
  GBP
  USD @deprecated
}

interface Priced_%(i)d implements Node {
  id: ID!
  price(in: Currency_%(i)d): Int
}

union Result_%(i)d @cached = Product_%(i)d | Seller | Basket

# What a search asks for.
input Search_%(i)d {
  "The words that are looked for"
  words: [String!]! = ["all"]
  limit: Int = 20
  currency: Currency_%(i)d = EUR
  box: Box = {width: 10, height: 20, is_open: true}
}

scalar Date_%(i)d @specifiedBy(url: "https://example.com/date")

directive @range_%(i)d(min: Int = 0, max: Int) repeatable on FIELD_DEFINITION | ARGUMENT_DEFINITION

extend type Seller @key(fields: "id") {
  rating_%(i)d(since: Date_%(i)d): Float
}

'''

DESCRIBED = '''"""
What has to be told to close the account of a seller, number %(i)d.
"""
input CloseSellerInput_%(i)d {
  """
  The account that is to be closed.
  """
  sellerId: ID!

  """
  A text by which the one who asks will know the answer again.
  """
  clientMutationId: String

  """
  Whether what is still in stock goes back to the seller, at the price of the day on which the account is closed.
  """
  returnStock: Boolean = false
}

"""
The properties by which the orders of a seller can be put in order.
"""
enum SellerOrderField_%(i)d {
  """
  By the time at which the order came in.
  """
  CREATED_AT

  """
  By the time at which something was last done for the order.
  """
  UPDATED_AT

  """
  By what the order comes to, without the cost of sending it.
  """
  AMOUNT
}

'''


def main():
    part = {"queries": QUERIES, "orders": ORDERS, "schema": SCHEMA, "described": DESCRIBED}[sys.argv[1]]
    size = int(sys.argv[2]) if len(sys.argv) > 2 else 5_000_000
    written, i = 0, 0
    while written < size:
        text = part % {"i": i}
        sys.stdout.write(text)
        written += len(text)
        i += 1


main()
