// ---- the tree of branches: each has a name, the branch and the turn in which it began, its number of lines, and its session. This
// has the files of the run, its options, the exercise if it is one's, the sources and labels that were loaded, and the moment last
// shown

const FIRST = { id: 0, parent: null, from: null, lines: 0 };
export const newTree = (session, name = "the run") => ({ now: 0, all: [{ ...FIRST, name, session }] });
const nextId = ({ all }) => 1 + Math.max(...all.map(({ id }) => id));
export const branchNow = ({ all, now }) => all.find(({ id }) => id === now);

// The tree with the present session put into its branch.
export function withSession(tree, session, lines = branchNow(tree).lines) {
  return { ...tree, all: tree.all.map((one) => (one.id === tree.now ? { ...one, session, lines } : one)) };
}

// The tree with one more branch, in which the page is then: below the present one, or beside the first.
export function withBranch(tree, name, session, from = null) {
  const id = nextId(tree), parent = from === null ? null : tree.now;
  return { now: id, all: [...tree.all, { id, name, parent, from, lines: 0, session }] };
}

// The branches of two trees; the page is where it is in the second one.
export function joinedTrees(tree, other) {
  const first = nextId(tree), moved = (id) => (id === null ? null : id + first);
  const all = other.all.map((one) => ({ ...one, id: moved(one.id), parent: moved(one.parent) }));
  return { now: moved(other.now), all: [...tree.all, ...all] };
}
