// Runs of pages that stand one after the other in a store, so that one request reads them.

const RUN_BYTES = 800e3, LEAST = 4;

/** The most tiles of a run: a power of two whose tiles have at most 800 kB together, and at least 4. */
export const mostOf = ({ tileBytes }) => Math.max(2 ** Math.floor(Math.log2(RUN_BYTES / tileBytes)), LEAST);

/** The runs of some pages in ascending order, each as [its first page, how many it has]. One of more than `most` pages is cut at the multiples of
 *  `most`, wherever it begins, so that the same pages are cut at the same places by every visit. Neighbours of another kind are runs of their own. */
export function runsOf(pages, most, kindOf = () => 0) {
  const runs = [];
  let kind = null;
  for (const page of pages) {
    const last = runs.at(-1), its = kindOf(page);
    if (last && last[0] + last[1] === page && its === kind) last[1]++;
    else runs.push([page, 1]);
    kind = its;
  }
  return runs.flatMap(([first, count]) => (count > most ? cut(first, count, most) : [[first, count]]));
}

function cut(first, count, most) {
  const runs = [];
  for (let at = first, end = first + count; at < end;) {
    const next = Math.min((Math.floor(at / most) + 1) * most, end);
    runs.push([at, next - at]);
    at = next;
  }
  return runs;
}
