// A session in JavaScript: a count in processor 0, its turns with what they overwrote, and the way back.
import { PLACE, open } from "pp6600";

const session = await open();
process.stdout.write(session.answer("SET M 0 100 3410 0376\nSET P 0 100\nSTEP 50\nDUMP PP 0\n").text);
for (const { processor, olds } of session.moments(10))
  for (const { place, number } of olds) console.log(`processor ${processor}: place ${place} was ${number.toString(8)}`);
session.back(10);
console.log(`P of processor 0 is ${session.numbers(PLACE.P, 1)[0].toString(8).padStart(4, "0")}`);
session.close();
