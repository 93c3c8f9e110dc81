const é = "😀", ticks = /`/g, no = 'gql`{', query = gql`query Find($id: ID) {
  pet(id: $id) { ${more({ a: `}` })} ...parts }
}`; // gql`{
/* gql`{ */
const parts = /* GraphQL */ `fragment parts on Pet { name }`, text = `${gql`query Other { e: name }`} gql`;
function schema() {
  return graphql(`
    "A \`pet\`: 😀" scalar Pet # ${"`"}
  `);
}
