// Shows the frames of a walk. It decides nothing: states, verdicts and paths are in the page. Written without the two characters that XML would take
// for a tag or an entity, so that the page stays well-formed.
'use strict';
const SVG = 'http://www.w3.org/2000/svg';
const walk = JSON.parse(document.getElementById('walk').textContent);
const frames = walk.frames.split(' ');
const count = frames.length;
const part = (id) => document.getElementById(id);
const stage = part('stage');
let shown = 0;
let timer = null;

// The states of the open elements in a frame, as words.
const state = (frame, place) => walk.open[place][Number(frames[frame][place]) + 1];

// The places of the open elements that differ in two frames.
function changed(before, frame) {
    return walk.open.map((_, place) => place).filter((place) => frames[frame][place] !== frames[before][place]);
}

function properties(picture, frame) {
    walk.open.forEach(([number], place) => {
        for (const s of ['1', '2']) {
            picture.style.setProperty(`--e${number}s${s}`, frames[frame][place] === s ? 'inline' : 'none');
        }
    });
}

function made(name, attributes) {
    const element = document.createElementNS(SVG, name);
    Object.entries(attributes).forEach(([key, value]) => element.setAttribute(key, value));
    return element;
}

const use = (name) => made('use', { href: `#${name}` });

// A path put together from its steps: one line, and one element with the tips of its arrows; nothing where the train stands there already.
function line(letter, path) {
    const steps = path.slice(1).map((section, place) => Array.from(part(`${letter}-${path[place]}-${section}`).children));
    if (steps.length === 0) {
        return [];
    }
    const data = (elements) => elements.map((element) => element.getAttribute('d')).join('');
    return [
        made('path', { class: `path-${letter}`, d: data(steps.map(([first]) => first)) }),
        made('path', { class: `tip-${letter}`, d: data(steps.flatMap(([, ...tips]) => tips)) }),
    ];
}

// What a frame shows of its danger: the section where the trains meet, both paths, their letters.
function marks(frame) {
    const danger = walk.dangers[walk.verdicts[frame]];
    if (!danger) {
        return [[], [], []];
    }
    const [, , meeting, one, two] = danger;
    const paths = [['a', walk.paths[one].split(' ')], ['b', walk.paths[two].split(' ')]];
    const both = paths[0][1][0] === paths[1][1][0] ? '-both' : '';
    return [
        [use(`m-${meeting}`)],
        paths.flatMap(([letter, path]) => line(letter, path)),
        paths.map(([letter, path]) => use(`${letter}-${path[0]}${both}`)),
    ];
}

function words(frame) {
    const danger = walk.dangers[walk.verdicts[frame]];
    return danger ? `trains ${danger[0]} and ${danger[1]} can both come to section ${danger[2]}` : 'no two trains can come to one section';
}

function badge(frame) {
    return part(walk.dangers[walk.verdicts[frame]] ? 'is-dangerous' : 'is-safe').content.cloneNode(true);
}

function show(frame) {
    const before = shown;
    shown = (frame + count) % count;
    properties(stage, shown);
    marks(shown).forEach((elements, place) => part(['meeting', 'paths', 'letters'][place]).replaceChildren(...elements));
    const changes = changed(before, shown);
    part('states').replaceChildren(...walk.open.map(([, name], place) => {
        const item = document.createElement('li');
        item.textContent = `${name}, ${state(shown, place)}`;
        item.className = changes.includes(place) ? 'changed' : '';
        return item;
    }));
    const danger = walk.dangers[walk.verdicts[shown]];
    const lines = [` Frame ${shown}: ${words(shown)}.`];
    if (danger) {
        lines.push(` Path A, of train ${danger[0]}: ${walk.paths[danger[3]]}. Path B, of train ${danger[1]}: ${walk.paths[danger[4]]}.`);
    }
    changes.forEach((place) => lines.push(` Changed: ${walk.open[place][1]}, to ${state(shown, place)}.`));
    part('verdict').replaceChildren(badge(shown), ...lines);
    part('number').value = shown;
    part('slide').value = shown;
}

function stop() {
    clearInterval(timer);
    timer = null;
    part('play').textContent = 'Play';
    part('play').setAttribute('aria-pressed', 'false');
    part('verdict').setAttribute('aria-live', 'polite');
}

function play() {
    timer = setInterval(() => show(shown + 1), Number(part('pace').value));
    part('play').textContent = 'Stop';
    part('play').setAttribute('aria-pressed', 'true');
    part('verdict').setAttribute('aria-live', 'off');
}

// The next frame without a danger, after the last one from the first on; the same one where there is no other.
function nextSafe() {
    const after = frames.map((_, step) => (shown + 1 + step) % count);
    const found = after.find((frame) => walk.verdicts[frame] === -1);
    return found === undefined ? shown : found;
}

// A small picture: the parts of the stage by name, with the properties of its own frame.
function small(frame) {
    const picture = made('svg', { class: 'station-picture', viewBox: stage.getAttribute('viewBox') });
    properties(picture, frame);
    const group = made('g', { transform: part('moved').getAttribute('transform') });
    const [meeting, paths, letters] = marks(frame);
    group.append(use('ground'), ...meeting, use('lines'), ...paths, use('above'), ...letters);
    picture.append(group);
    const figure = document.createElement('figure');
    const caption = document.createElement('figcaption');
    const danger = walk.dangers[walk.verdicts[frame]];
    const verdict = danger ? `dangerous, ${danger[0]} and ${danger[1]} meet in ${danger[2]}` : 'safe';
    caption.textContent = `Frame ${frame}, ${frames[frame]}: ${verdict}`;
    figure.append(caption, picture);
    return figure;
}

// The sheet for paper: all frames, or as many as it takes about the one that is shown.
function sheet() {
    const first = shown - shown % MOST_PRINTED;
    const printed = frames.map((_, frame) => frame).slice(first, first + MOST_PRINTED);
    part('sheet').replaceChildren(...printed.map(small));
    const last = printed[printed.length - 1];
    part('printed').textContent = count > MOST_PRINTED
        ? `Frames ${first} to ${last} of 0 to ${count - 1}. For others, go to one of them and print again.`
        : '';
}

function press(id, act) {
    part(id).addEventListener('click', act);
}

function go(frame) {
    stop();
    show(frame);
}

press('first', () => go(0));
press('back', () => go(shown - 1));
press('on', () => go(shown + 1));
press('last', () => go(count - 1));
press('safe', () => go(nextSafe()));
press('play', () => (timer === null ? play() : stop()));
part('slide').addEventListener('input', () => go(Number(part('slide').value)));
part('number').addEventListener('change', () => {
    const asked = Math.trunc(Number(part('number').value));
    go(Math.min(Math.max(asked || 0, 0), count - 1));
});
part('pace').addEventListener('change', () => {
    if (timer !== null) {
        stop();
        play();
    }
});
document.addEventListener('keydown', (event) => {
    const act = { ArrowLeft: () => go(shown - 1), ArrowRight: () => go(shown + 1) }[event.key];
    if (act) {
        if (document.activeElement.closest('input, select') === null) {
            act();
        }
    }
});
window.addEventListener('beforeprint', sheet);
window.addEventListener('afterprint', () => part('sheet').replaceChildren());
part('sheet').style.setProperty('--small', `${Math.min(Math.max(Number(stage.getAttribute('width')) / 18, 60), 130)}mm`);
show(0);
