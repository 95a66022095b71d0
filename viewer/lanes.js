// Lanes: one for each queue, one for what the host reads, one for what is handed over. Where nodes of a lane are under way at one time
// (a trace tells that), they stand in rows.
"use strict";
Viewer.lanes = (() => {
  const TOP = 12;
  const HEAD = 18;
  const BOX = 44;
  const ROW = BOX + 5;
  const SPACE = 16;

  // The lane of nodes from a first number up to an end, and the row of each.
  function laneOf(title, below, nodes, times, rowOf, y) {
    const isSorted = nodes.every((n, k) => k === 0 || times.begins[nodes[k - 1]] <= times.begins[n]);
    if (!isSorted) nodes.sort((a, b) => times.begins[a] - times.begins[b] || a - b);
    const ends = [];
    // reached[k]: the greatest end among the first k + 1 nodes, by which the first one in view is found.
    const reached = new Float64Array(nodes.length);
    nodes.forEach((n, k) => {
      let row = 0;
      while (row < ends.length && ends[row] > times.begins[n]) row++;
      ends[row] = times.ends[n];
      rowOf[n] = row;
      reached[k] = Math.max(times.ends[n], k ? reached[k - 1] : 0);
    });
    const rows = Math.max(1, ends.length);
    return { title, below, nodes, reached, y, rows, height: HEAD + rows * ROW + 3 };
  }

  const range = (first, end) => Array.from({ length: end - first }, (_, k) => first + k);

  // All lanes from top to bottom; `of[n]` is the lane of node n, and `rowOf[n]` its row there.
  function of(program, times) {
    const lanes = [];
    const rowOf = new Uint16Array(program.nodes.length);
    let y = TOP;
    const add = (title, below, first, end) => {
      const lane = laneOf(title, below, range(first, end), times, rowOf, y);
      lanes.push(lane);
      y += lane.height + SPACE;
    };
    for (const queue of program.queues) add(Viewer.naming.queue(program, queue.number), queue.family, queue.first, queue.end);
    if (program.outside > program.host) add("host", "read-backs", program.host, program.outside);
    if (program.nodes.length > program.outside) add("outside", "hand-overs", program.outside, program.nodes.length);
    const laneOfNode = new Uint8Array(program.nodes.length);
    lanes.forEach((lane, k) => lane.nodes.forEach((n) => (laneOfNode[n] = k)));
    return { lanes, of: laneOfNode, rowOf, bottom: y };
  }

  // The upper edge of a row of a lane, and of a node's box.
  const rowTop = (lane, row) => lane.y + HEAD + row * ROW;
  const topOf = (lanes, n) => rowTop(lanes.lanes[lanes.of[n]], lanes.rowOf[n]);

  // From which to which place in the list of its nodes a lane has what lies between two times.
  function between(lane, times, left, right) {
    let [low, high] = [0, lane.nodes.length];
    while (low < high) {
      const middle = (low + high) >> 1;
      if (lane.reached[middle] > left) high = middle;
      else low = middle + 1;
    }
    let end = low;
    while (end < lane.nodes.length && times.begins[lane.nodes[end]] < right) end++;
    return [low, end];
  }

  return { of, rowTop, topOf, between, BOX };
})();
