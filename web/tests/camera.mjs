// Tests what part of a drawing the camera sees.
//
// camera.mjs prints what differs, and last 'N passed, M failed'.

import {around, boxAround, centred, isIn, onTheWay, revealed, seenFrom, whole, zoomed} from "../src/lens.js";

import {canary, Tally} from "./common.mjs";

await canary();
const tally = new Tally();
const same = (name, got, want) => tally.same(name, got, want);

// ---- The camera

const frame = {width: 410, height: 210};
same("all is seen, in the middle", whole({width: 100, height: 100}, frame), {x: 105, y: 5, scale: 2});
same("in no larger scale than is wanted", whole({width: 100, height: 100}, frame, 1), {x: 155, y: 55, scale: 1});
const spot = {x: 10, y: 20, scale: 1};
same("a point stays where it is", zoomed(spot, 2, 110, 70), {x: -90, y: -30, scale: 2});
same("not nearer than can be, and the point stays there, too", zoomed(spot, 100, 110, 70), {x: -290, y: -130, scale: 4});
same("nor further", zoomed(spot, 0.0001, 0, 0).scale, 0.05);
same("what is seen stays", revealed(spot, {x: 0, y: 0, width: 50, height: 50}, frame), spot);
same("what is on the right comes in", revealed(spot, {x: 500, y: 0, width: 50, height: 50}, frame), {x: -180, y: 20, scale: 1});
same("what is above, too", revealed({...spot, y: -300}, {x: 0, y: 0, width: 50, height: 50}, frame).y, 40);
same("what is seen", seenFrom({x: -20, y: -10, scale: 2}, frame), {x: 10, y: 5, width: 205, height: 105});
same("a point in the middle", centred(spot, {x: 100, y: 50}, frame), {x: 105, y: 55, scale: 1});
same("in and out", [isIn({x: 0, y: 0, width: 5, height: 5}, {x: 0, y: 0, width: 5, height: 5}),
  isIn({x: 0, y: 0, width: 7, height: 5}, {x: 0, y: 0, width: 5, height: 5})], [true, false]);
same("on the way", onTheWay(spot, {x: 30, y: 40, scale: 4}, 0.5), {x: 20, y: 30, scale: 2});

same("the box around two", boxAround([{x: 100, y: 100, width: 50, height: 20}, {x: 10, y: 40, width: 30, height: 30}]), {
  x: -4, y: 12, width: 168, height: 122
});
same("around none", boxAround([]), null);
same("around a box", around({x: 50, y: 20, width: 100, height: 100}, frame), {x: 5, y: -35, scale: 2});
tally.end();
