// The search box: of NAMES, which stands above in dist/book/search.js, those that have what is written.
const [form, box, list] = ["#search", "#search input", "#search ol"].map((one) => document.querySelector(one));
form.hidden = false;
box.addEventListener("input", () => {
  const wanted = box.value.trim().toLowerCase();
  const rank = ([name]) => name.length + 1000 * !name.toLowerCase().startsWith(wanted);
  const found = wanted === "" ? [] : NAMES.filter(([name]) => name.toLowerCase().includes(wanted));
  list.replaceChildren(...found.sort((a, b) => rank(a) - rank(b)).slice(0, 12).map(([name, href]) => {
    const item = document.createElement("li");
    item.append(Object.assign(document.createElement("a"), { href, textContent: name }));
    return item;
  }));
});
document.addEventListener("keydown", (event) => {
  if (event.key === "Enter" && event.target === box && list.querySelector("a")) location.href = list.querySelector("a").href;
  if (event.key === "/" && event.target !== box) { event.preventDefault(); box.focus(); }
});
