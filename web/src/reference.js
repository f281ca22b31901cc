// The language on one page, for the help: what a card is, and each test and operation with an example.

import {make} from "./dom.js";
import {meaningOf} from "./meaning.js";

const EACH_CARD = [
  ["* NOTE", "column 1 is *: a comment"],
  [" (A,PD)", "column 1 is blank: a statement; columns 2 to 72 count"],
  ["LOOP (A,PD)", "column 1 is a letter: a statement with a label of up to 6 letters and digits"],
  ["+(PL)", "column 1 is +: continues the statement before"],
  [
    " IF (A,E,0) THEN (A,PD) LOOP",
    "a condition, its test, THEN, operations, and an exit, where the run goes on"
  ],
  [" IFANY (A,E,1)(A,E,9) THEN DONE", "IFALL, IFANY, IFNONE and IFNALL have several tests; IF and NOT one"],
  [" DONE", "the exit that returns from a call, or ends the run; FAIL goes to the call's fail label"],
  ["ANV", "a chain: bug A, field N of the block at A, and field V of the block to which that leads"],
];
const EACH_TEST = [
  ["A,E,5", "A is 5; with a suffix also (A,EO,17) in octal, and (A,EH,Y) as a character"],
  ["A,N,B", "A is not B"],
  ["A,G,5", "A is greater than 5"],
  ["A,L,5", "A is less than 5"],
  ["A,O,5", "each bit that is one in 5 is one in A"],
  ["A,Z,5", "each bit that is one in 5 is zero in A"],
];
const EACH_OPERATION = [
  "A,E,5",     "A,EO,17",        "A,EH,AB", "A,A,B",  "A,S,1",   "A,M,10",   "A,V,10",
  "A,Y,10",    "A,N,B",          "A,O,B",   "A,X,B",  "A,C,A",   "A,L,6",    "A,R,6",
  "A,I,B",     "0,DN,18,35",     "S,FC,A",  "R,FC,A", "S,FD,N",  "R,FD,N",   "A,GT,4",
  "A,GT,4,AN", "A,GT,4,AN,FULL", "A,DP,B",  "A,FR",   "A,FR,AN", "SORT,DO",  "SORT,DO,ERROR",
  "A,IN,1",    "A,IN,1,END",     "A,PR,6",  "A,PD",   "A,PO",    "HELLO,PH", "PL",
];

export function referenceOf() {
  const table = (/** @type {string} */ title, /** @type {string[][]} */ rows) =>
    [make("h3", {}, title),
     make(
       "table", {class: "keys"},
       ...rows.map(([text,
                     says]) => make("tr", {}, make("td", {}, make("code", {}, text)), make("td", {}, says)))
     )];
  return [
    ...table("Cards", EACH_CARD),
    ...table("Tests", EACH_TEST.map(([text, says]) => [`(${text})`, says])),
    ...table("Operations", EACH_OPERATION.map((text) => [`(${text})`, meaningOf(text.split(","), text)])),
  ];
}
