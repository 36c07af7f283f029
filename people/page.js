'use strict'
// Shows the yard after as many pushes as the fragment of the address says: #12 after twelve. The
// pushes are read from the list, the yard's first state from parents and startCars.

const items = Array.from(document.getElementById('pushes').children)
const count = items.length - 1
const from = [], to = []
for (let i = 1; i <= count; i++) {
    const berths = items[i].textContent.split('→')
    from[i] = Number(berths[0])
    to[i] = Number(berths[1])
}
// A track carries the number of its lower berth.
const isUp = i => parents[from[i]] === to[i]
const trackOf = i => isUp(i) ? from[i] : to[i]

const berthGroups = parents.map((_, b) => document.getElementById('berth' + b))
const places = berthGroups.map(group => Array.from(group.querySelectorAll('.car, .moving, .free')))
const trackGroups = parents.map((_, b) => document.getElementById('track' + b))
const rows = parents.map((_, b) => document.getElementById('crossed' + b))
const upAll = parents.map(() => 0), downAll = parents.map(() => 0)
for (let i = 1; i <= count; i++) (isUp(i) ? upAll : downAll)[trackOf(i)]++

let shown = -1
let timer = null

function show(wanted) {
    const at = Math.max(0, Math.min(count, wanted))
    const holds = startCars.slice()
    const up = parents.map(() => 0), down = parents.map(() => 0)
    for (let i = 1; i <= at; i++) {
        holds[from[i]]--
        holds[to[i]]++
        ;(isUp(i) ? up : down)[trackOf(i)]++
    }
    // Of the cars in a berth those are still to move that are beyond the fewest it will hold.
    const later = holds.slice(), fewest = holds.slice()
    for (let i = at + 1; i <= count; i++) {
        if (--later[from[i]] < fewest[from[i]]) fewest[from[i]] = later[from[i]]
        later[to[i]]++
    }
    parents.forEach((_, b) => {
        places[b].forEach((place, p) => {
            const kind = p >= holds[b] ? 'free' : p < fewest[b] ? 'car' : 'moving'
            place.setAttribute('class', kind)
            const ring = place.nextElementSibling
            if (ring && ring.tagName === 'circle') ring.setAttribute('class', kind === 'car' ? 'on' : 'ring')
        })
        berthGroups[b].classList.toggle('left', at > 0 && b === from[at])
        berthGroups[b].classList.toggle('entered', at > 0 && b === to[at])
        if (!trackGroups[b]) return
        const current = at > 0 && b === trackOf(at)
        trackGroups[b].classList.toggle('current', current)
        rows[b].classList.toggle('current', current)
        for (const [way, sofar, all] of [['up', up[b], upAll[b]], ['down', down[b], downAll[b]]]) {
            const number = trackGroups[b].querySelector('.' + way + 'times')
            if (number) number.textContent = sofar + '/' + all
        }
        rows[b].cells[1].textContent = up[b] + ' of ' + upAll[b]
        rows[b].cells[2].textContent = down[b] + ' of ' + downAll[b]
    })
    if (shown >= 0) items[shown].classList.remove('current')
    items[at].classList.add('current')
    const list = items[at].parentElement
    if (items[at].offsetTop < list.scrollTop || items[at].offsetTop + items[at].offsetHeight > list.scrollTop + list.clientHeight)
        list.scrollTop = items[at].offsetTop - list.clientHeight / 2
    if (at > 0 && at !== shown) keepInSight(trackGroups[trackOf(at)])
    shown = at

    document.getElementById('state').textContent =
        count === 0 ? 'There is no push.'
        : at === 0 ? 'Start: no push of ' + count + ' yet.'
        : 'Push ' + at + ' of ' + count + ': a car went from berth ' + from[at] + ' to berth ' + to[at]
            + (isUp(at) ? ', towards the root.' : ', away from the root.')
    const standing = []
    holds.forEach((cars, b) => { if (cars > 0) standing.push(b + (cars > 1 ? ' (' + cars + ' cars)' : '')) })
    document.getElementById('cars').textContent =
        standing.length === 0 ? 'No car stands in the yard.'
        : 'Cars stand in ' + (standing.length === 1 ? 'berth ' : 'berths ') + standing.join(', ') + '.'
    document.getElementById('slider').value = at
    const start = at === 0, end = at === count
    for (const [id, off] of [['first', start], ['back', start], ['forward', end], ['last', end], ['play', count === 0]])
        document.getElementById(id).disabled = off
}

// Scrolls the picture alone, and only if the track is out of sight.
function keepInSight(track) {
    const frame = document.getElementById('picture')
    const outer = frame.getBoundingClientRect(), inner = track.getBoundingClientRect()
    if (inner.top < outer.top || inner.bottom > outer.bottom) frame.scrollTop += inner.top - outer.top - frame.clientHeight / 2
    if (inner.left < outer.left || inner.right > outer.right) frame.scrollLeft += inner.left - outer.left - frame.clientWidth / 2
}

function go(wanted) {
    show(wanted)
    history.replaceState(null, '', '#' + shown)
}
function fromAddress() {
    const wanted = Number.parseInt(location.hash.slice(1), 10)
    show(Number.isNaN(wanted) ? 0 : wanted)
}
function stop() {
    clearInterval(timer)
    timer = null
    document.getElementById('play').textContent = 'play'
}
function start() {
    if (shown === count) go(0)
    document.getElementById('play').textContent = 'pause'
    timer = setInterval(() => { if (shown >= count) stop(); else go(shown + 1) }, Number(document.getElementById('pace').value))
}
function toggle() { if (timer === null) start(); else stop() }

const steps = { first: () => 0, back: () => shown - 1, forward: () => shown + 1, last: () => count }
for (const id of Object.keys(steps)) document.getElementById(id).addEventListener('click', () => { stop(); go(steps[id]()) })
document.getElementById('play').addEventListener('click', toggle)
document.getElementById('pace').addEventListener('change', () => { if (timer !== null) { stop(); start() } })
document.getElementById('slider').addEventListener('input', event => { stop(); go(Number(event.target.value)) })
document.getElementById('pushes').addEventListener('click', event => {
    const item = event.target.closest('li')
    if (item) { stop(); go(items.indexOf(item)) }
})
const keys = { ArrowLeft: 'back', ArrowRight: 'forward', Home: 'first', End: 'last' }
document.addEventListener('keydown', event => {
    if (event.ctrlKey || event.altKey || event.metaKey || event.target.tagName === 'SELECT') return
    if (event.key === ' ' && event.target.tagName !== 'BUTTON') { event.preventDefault(); toggle() }
    else if (keys[event.key]) { event.preventDefault(); stop(); go(steps[keys[event.key]]()) }
})
window.addEventListener('hashchange', fromAddress)
fromAddress()
