// The log of a channel: each turn that changes its state, and the word. Processor 0 sends a word on channel 5, and processor 1 takes it.
import { CONDITION, PLACE, open } from "pp6600";

const STATE = PLACE.STATES + 5, WORD = PLACE.REGISTERS + 5, NAMES = ["inactive", "empty", "full", "full with a function code"];
const octal = (number, digits) => number.toString(8).padStart(digits, "0");
const session = await open();
session.answer("SET M 0 100 1407 7405 7205 0300\nSET P 0 100\n"); // LDN 7, ACN 5, OAN 5, and a jump to itself
session.answer("SET M 1 100 7005 7505 0300\nSET P 1 100\n"); // IAN 5, DCN 5
for (let turn = 0; ;) {
  const { turns, found } = session.until([{ kind: CONDITION.CHANGES, place: STATE, first: 1 }], 1000);
  if (!found) break;
  turn += turns;
  const [state] = session.numbers(STATE, 1), [word] = session.numbers(WORD, 1);
  console.log(`turn ${octal(turn, 2)}: ${NAMES[state]}, ${octal(word, 4)}`);
}
session.close();
