//! Card files that a reader takes: a plan dressed as certificates, some of them alike, some of them against the policy.

use crate::draft::{Cert, Draft};
use crate::plans::{plan, Plan, Who};
use crate::random::Random;
use crate::wording::{
    estranged, host, key_of, name_of, pattern, renewed, serial_of, varied, Dress,
};

pub fn house(random: &mut Random) -> Draft {
    let plan = plan(random);
    let mut draft = dressed(random, &plan);
    renew(random, &plan, &mut draft);
    if random.chance(50) {
        estrange(random, &plan, &mut draft);
    }
    for _ in 0..random.below(3) {
        bind(random, &plan, &mut draft);
    }
    make_alike(random, &mut draft);
    if random.chance(35) {
        for _ in 0..random.within(1..=3) {
            spoil(random, &plan, &mut draft);
        }
    }
    draft
}

fn dressed(random: &mut Random, plan: &Plan) -> Draft {
    let dress = random.weighed(&[(30, Dress::Bare), (50, Dress::Plain), (20, Dress::Rich)]);
    let now = random.weighed(&[(90, 1_763_000_000), (5, 0), (5, u64::MAX)]);
    let mut roots = Vec::new();
    for (place, who) in plan.roots.iter().enumerate() {
        let depth = (plan.root == Some(place)).then_some(plan.chain.len());
        let mut root = cert(random, *who, depth, now, dress);
        root.path_length = plan.root_path_length.or(root.path_length);
        roots.push(root);
    }
    let mut bundle = Vec::new();
    for (place, who) in plan.bundle.iter().enumerate() {
        let depth = plan.chain.iter().position(|link| *link == place);
        bundle.push(cert(random, *who, depth, now, dress));
    }
    let asked = random.chance(70);
    let host = if asked { host(random) } else { vec![] };
    name_leaf(random, &mut bundle[0], &host, dress);
    Draft {
        edition: 1,
        verdicts: verdicts(random, plan),
        roots,
        bundle,
        stray_verdicts: 0,
        tasks: 1,
        now,
        budget: random.next() >> random.below(64),
        purpose: 0,
        host,
    }
}

fn verdicts(random: &mut Random, plan: &Plan) -> Vec<Vec<u8>> {
    let mut row = |issuer: &Who, hit: usize| {
        let fits = |subject: &Who| issuer.subject == subject.issuer;
        let percent = |subject| if fits(subject) { hit } else { plan.noise };
        let verdict = |subject| u8::from(random.chance(percent(subject)));
        plan.bundle.iter().map(verdict).collect()
    };
    let mut rows: Vec<Vec<u8>> = Vec::new();
    rows.extend(plan.roots.iter().map(|root| row(root, plan.root_hit)));
    rows.extend(plan.bundle.iter().map(|cert| row(cert, plan.hit)));
    for pair in plan.chain.windows(2) {
        rows[plan.roots.len() + pair[1]][pair[0]] = 1;
    }
    if let Some(root) = plan.root {
        rows[root][plan.chain[plan.chain.len() - 1]] = 1;
    }
    rows
}

/// A certificate that the policy takes at its depth in a chain: 0 is the leaf.
fn cert(random: &mut Random, who: Who, depth: Option<usize>, now: u64, dress: Dress) -> Cert {
    let rich = dress == Dress::Rich;
    let often = if rich { 80 } else { 25 };
    let ca = depth != Some(0) || random.chance(20);
    let algorithm = match dress {
        Dress::Bare => vec![0x2A],
        _ => vec![0x2A, 0x86, 0x48, 0x86, 0xF7, 0x0D, 1, 1, 11],
    };
    let own_serial = random.chance(90);
    let serial = serial_of(if own_serial { who.subject } else { 999 }, dress);
    let room = random.pick(&[0, 0, 1, 3, 240]);
    let path_length = (depth.unwrap_or(1).saturating_sub(1) + room).min(255);
    let renewed = random.chance(3);
    let key = |entity: usize, renewed: bool| key_of(entity, renewed, dress);
    Cert {
        version: 2,
        ca,
        key_usage: random.chance(often).then_some(ca || random.chance(50)),
        critical: false,
        stray_flags: 0,
        not_before: now - random.pick(&[0, now, now / 2, now.min(86_400)]),
        not_after: now.saturating_add(random.pick(&[0, 1, 86_400, u64::MAX])),
        serial,
        outer: algorithm.clone(),
        inner: algorithm,
        issuer: varied(random, &name_of(who.issuer, dress)),
        subject: varied(random, &name_of(who.subject, dress)),
        authority_key_id: random.chance(often).then(|| key(who.issuer, false)),
        authority_serial: random
            .chance(often / 3)
            .then(|| serial_of(who.issuer, dress)),
        subject_key_id: random.chance(often).then(|| key(who.subject, renewed)),
        path_length: (ca && random.chance(often)).then_some(path_length as u8),
        usages: usages(random),
        dns_names: vec![],
    }
}

/// Usages that mostly let a leaf serve.
fn usages(random: &mut Random) -> Vec<u8> {
    match random.below(10) {
        0..=4 => vec![],
        5 => vec![0],
        6 => vec![1, 0],
        7 => vec![5, 6, 7],
        8 => vec![0, 1, 2, 3, 4, 5, 6, 7],
        _ => random.bytes(0..=8).iter().map(|byte| byte % 8).collect(),
    }
}

fn name_leaf(random: &mut Random, leaf: &mut Cert, asked: &[u8], dress: Dress) {
    let most = if dress == Dress::Rich { 6 } else { 2 };
    for _ in 0..random.within(0..=most) {
        let other = host(random);
        leaf.dns_names.push(pattern(random, &other));
    }
    for _ in 0..random.within(1..=3) {
        let place = random.within(0..=leaf.dns_names.len());
        leaf.dns_names.insert(place, pattern(random, asked));
    }
}

/// Names the chain's self-issued certificates, the highest first, in all the ways in which they can be or seem so. Some have a new key.
fn renew(random: &mut Random, plan: &Plan, draft: &mut Draft) {
    for pair in plan.chain.windows(2).rev() {
        let (below, place) = (pair[0], pair[1]);
        if !plan.bundle[place].self_issued() {
            continue;
        }
        let cert = &mut draft.bundle[place];
        (cert.issuer, cert.subject) = renewed(random, &cert.issuer);
        let named = varied(random, &cert.subject);
        let new_key = random.chance(60).then(|| random.bytes(20..=20));
        cert.subject_key_id = new_key.or(cert.subject_key_id.take());
        let key = cert.subject_key_id.clone();
        let subject = &mut draft.bundle[below];
        subject.issuer = named;
        subject.authority_key_id = key.filter(|_| random.chance(80));
    }
}

/// Makes some self-issued certificates such that are not, though all issue whom they did: every name gets an RDN for each of them. There
/// are at most eight, so that no name has too many.
fn estrange(random: &mut Random, plan: &Plan, draft: &mut Draft) {
    let roots = draft.roots.len();
    let own = (0..plan.bundle.len()).filter(|place| plan.bundle[*place].self_issued());
    for place in own.take(8) {
        if random.chance(50) {
            for at in 0..draft.certs() {
                let [issuer, subject] = estranged(random, at == roots + place);
                draft.cert(at).issuer.push(issuer);
                draft.cert(at).subject.push(subject);
            }
        }
    }
}

/// Gives a certificate of the chain, or its root, a path length at the edge of what is below it, with the self-issued ones and without.
fn bind(random: &mut Random, plan: &Plan, draft: &mut Draft) {
    let Some(root) = plan.root else { return };
    let depth = random.within(1..=plan.chain.len());
    let counted = counted(plan, depth);
    let edges = [counted, counted, counted + 1, counted.max(1) - 1, depth - 1];
    let cert = match plan.chain.get(depth) {
        Some(place) => &mut draft.bundle[*place],
        None => &mut draft.roots[root],
    };
    (cert.ca, cert.path_length) = (true, Some(random.pick(&edges) as u8));
}

/// How many of the chain's certificates below a depth path lengths count: neither the leaf nor the self-issued ones.
fn counted(plan: &Plan, depth: usize) -> usize {
    let between = plan.chain[..depth].iter().skip(1);
    between
        .filter(|place| !plan.bundle[**place].self_issued())
        .count()
}

/// Two places with the same record and the same verdicts stay two places.
fn make_alike(random: &mut Random, draft: &mut Draft) {
    let (roots, bundle) = (draft.roots.len(), draft.bundle.len());
    if bundle > 1 && random.chance(25) {
        let (from, to) = (random.below(bundle), random.within(1..=bundle - 1));
        draft.bundle[to] = draft.bundle[from].clone();
        draft.verdicts[roots + to] = draft.verdicts[roots + from].clone();
        draft
            .verdicts
            .iter_mut()
            .for_each(|row| row[to] = row[from]);
    }
    if roots > 1 && random.chance(15) {
        let (from, to) = (random.below(roots), random.below(roots));
        draft.roots[to] = draft.roots[from].clone();
        draft.verdicts[to] = draft.verdicts[from].clone();
    }
    if roots > 0 && bundle > 1 && random.chance(10) {
        let (from, to) = (random.below(roots), random.within(1..=bundle - 1));
        draft.bundle[to] = draft.roots[from].clone();
        draft.verdicts[roots + to] = draft.verdicts[from].clone();
    }
}

/// Turns one certificate against a rule of the policy, or to the edge of it.
fn spoil(random: &mut Random, plan: &Plan, draft: &mut Draft) {
    let (roots, now) = (draft.roots.len(), draft.now);
    let all = draft.certs();
    let place = match random.below(4) {
        0 => roots,
        1 => roots + random.pick(&plan.chain),
        2 => plan.root.unwrap_or(all - 1),
        _ => random.below(all),
    };
    let cert = draft.cert(place);
    match random.below(11) {
        0 => cert.not_after = now.saturating_sub(1),
        1 => cert.not_before = now.saturating_add(1),
        2 => cert.version = random.pick(&[0, 1, 3, 255]),
        3 => cert.inner[0] ^= 1,
        4 => cert.inner.push(0),
        5 => cert.critical = true,
        6 => (cert.ca, cert.path_length) = (false, None),
        7 => cert.key_usage = Some(false),
        8 => (cert.ca, cert.path_length) = (true, Some(random.below(5) as u8)),
        9 => cert.usages = vec![1, 5, 7],
        _ => cert.dns_names.clear(),
    }
}
