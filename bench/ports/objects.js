// Objects, closures, regular expressions, JSON, errors and numbers that aren't whole.
function Counter() { this.counts = {}; }
Counter.prototype.add = function (word) {
  this.counts[word] = (this.counts[word] || 0) + 1;
};

var counter = new Counter();
'a node asks, a home answers; a node has what a home gave'.replace(/\w+/g, function (word) {
  counter.add(word);
  return word;
});
print(JSON.stringify(counter.counts));
print(Object.keys(counter.counts).sort().join(' '));

function path(number) {
  var steps = [number];
  while (number !== 1) {
    number = number % 2 === 0 ? number / 2 : 3 * number + 1;
    steps.push(number);
  }
  return steps;
}
print(path(27).length, path(97).slice(-3));
print(path(27).every(function (step) { return step < 10000; }));
try { undefinedName; } catch (error) { print(error.name); }
print(1 / 3, Math.sqrt(2), 1e21, 0.1 + 0.2, parseFloat('2.5e-7'));
