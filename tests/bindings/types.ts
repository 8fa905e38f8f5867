// What the types of the module for Node let pass, and what they don't: tsc --strict compiles it.
import { BadBuffer, FbcheckError, Schema, commit, type Good, type Options, type Value } from '../../bindings/node';

export function texts(
  schema: Schema, message: Uint8Array, later: AsyncIterable<Uint8Array>, ident: string | undefined,
): (string | number)[] {
  const asked: Options = { ident, root: undefined };
  const [name, count, place] = schema.read(message, 'name', schema.path('count'), 'place');
  const rest: Value[] = schema.read(message, ...['name', 'count']);
  const verdict = schema.check(message);
  const good: Good = schema.verify(message);
  schema.messages(later).next().then(({ value }) => value?.verdict);
  for (const { verdict, view, begin } of schema.messages([message], { maxBytes: undefined })) {
    verdict.reads.toFixed(begin);
    if (view) view.verdict.tables.toFixed();
    // @ts-expect-error: a bad message has none
    view.read('name');
  }
  const stream = schema.stream({ maxBytes: 4096 });
  for (const { verdict } of stream.push(message)) verdict.reads.toFixed();
  stream.end();
  const error: unknown = new Error();
  if (error instanceof BadBuffer) error.verdict.position.toFixed();
  // @ts-expect-error: no such code
  if (error instanceof FbcheckError && error.code === 'NO_ROT') return [];
  if (error instanceof FbcheckError && error.code === 'UNMARKED_BYTES') return [];
  // @ts-expect-error: it may be unknown
  commit.toUpperCase();
  new Schema({ href: 'file:///my.bfbs' });
  // @ts-expect-error: only a text has a string
  name.value.toUpperCase();
  // @ts-expect-error: no such option
  schema.with({ max_depth: 5 });
  // @ts-expect-error: it's true or false
  schema.with({ strict: 1 });
  schema.with({ strict: true, knownFields: true, utf8: true, plainBytes: false, maxReads: undefined });
  schema.with(asked);
  if (place.kind === 'struct') place.value.subarray(4);
  const [names, first] = schema.view(message).read('items[*].name', schema.path('name'));
  if (names.kind === 'elements') names.value.map((value) => (typeof value === 'string' ? value.trim() : first.kind));
  return [
    verdict.ok ? verdict.tables : verdict.reason,
    name.kind === 'text' ? name.value.toUpperCase() : '',
    count.kind === 'int' ? count.value.toString() : rest.length,
    good.depth,
    commit ?? '',
  ];
}
