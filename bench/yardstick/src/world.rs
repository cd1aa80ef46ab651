//! What a broker knows, and its answers.
use crate::access::{allowed, read_acl, Acl};
use crate::fields::{num, only, text, Line};
use crate::refused::{Refused, R};
use crate::topics::parse_sub;
use crate::tree::Node;
use indexmap::IndexMap;
use std::collections::{BTreeMap, BTreeSet, VecDeque};
use std::rc::Rc;

const CLOCK_MAX: u64 = 1_000_000_000_000;

#[derive(Clone)]
pub(crate) struct Sub {
    pub(crate) qos: u8,
    pub(crate) no_local: bool,
    pub(crate) rap: bool,
    pub(crate) id: Option<u32>,
}
pub(crate) struct AtFilter {
    pub(crate) filter: Rc<str>,
    pub(crate) direct: BTreeMap<Rc<str>, Sub>,
    pub(crate) groups: BTreeMap<String, IndexMap<Rc<str>, Sub>>,
}
pub(crate) struct Retained {
    pub(crate) topic: Rc<str>,
    pub(crate) payload: Rc<str>,
    pub(crate) qos: u8,
    pub(crate) publisher: Rc<str>,
    pub(crate) deadline: Option<u64>,
}
#[derive(Clone)]
pub(crate) struct Copy {
    pub(crate) client: Rc<str>,
    pub(crate) topic: Rc<str>,
    pub(crate) payload: Rc<str>,
    pub(crate) qos: u8,
    pub(crate) retain: bool,
    pub(crate) expiry: Option<u64>,
    pub(crate) ids: Vec<u32>,
    pub(crate) group: Option<(String, Rc<str>)>,
}
pub(crate) struct Session {
    pub(crate) user: Option<String>,
    pub(crate) interval: u32,
    pub(crate) connected: bool,
    pub(crate) end: Option<u64>,
    pub(crate) waiting: VecDeque<(Copy, Option<u64>)>,
    pub(crate) filters: BTreeSet<(Option<String>, Rc<str>)>,
}

pub(crate) struct World {
    pub(crate) moment: u64,
    pub(crate) acl: Option<Acl>,
    pub(crate) sessions: BTreeMap<Rc<str>, Session>,
    pub(crate) subs: Node<AtFilter>,
    pub(crate) retained: Node<Retained>,
    pub(crate) by_deadline: BTreeSet<(u64, Rc<str>)>,
    pub(crate) ends: BTreeSet<(u64, Rc<str>)>,
    pub(crate) kept: u64,
    pub(crate) count: u64,
    pub(crate) max_retained: Option<u64>,
    pub(crate) max_queued: usize,
}

pub(crate) enum Outcome {
    Reason(u8),
    Counts(u64, u64, u64),
}

impl World {
    pub(crate) fn client(&self, c: &str, connected: bool) -> R<Rc<str>> {
        if c.is_empty() || c.len() > 65535 || c.contains('\0') {
            return Err(Refused(5, 0));
        }
        if connected {
            return match self.sessions.get_key_value(c) {
                Some((k, s)) if s.connected => Ok(k.clone()),
                _ => Err(Refused(7, 0)),
            };
        }
        Ok(Rc::from(c))
    }
    fn drop_sub(&mut self, c: &Rc<str>, share: &Option<String>, f: &str) -> bool {
        let slot = self.subs.entry(f);
        let Some(at) = slot else {
            self.subs.take(f);
            return false;
        };
        let had = match share {
            None => at.direct.remove(c).is_some(),
            Some(s) => {
                let g = at.groups.get_mut(s);
                let had = g.map_or(false, |g| g.shift_remove(c).is_some());
                if at.groups.get(s).map_or(false, |g| g.is_empty()) {
                    at.groups.remove(s);
                }
                had
            }
        };
        let empty = at.direct.is_empty() && at.groups.is_empty();
        if empty {
            self.subs.take(f);
        }
        if had {
            self.count -= 1
        }
        had
    }
    fn end(&mut self, c: &Rc<str>) {
        if let Some(s) = self.sessions.remove(c) {
            if let Some(e) = s.end {
                self.ends.remove(&(e, c.clone()));
            }
            for (share, f) in s.filters {
                self.drop_sub(c, &share, &f);
            }
        }
    }
    fn leave(&mut self, c: &Rc<str>) {
        let m = self.moment;
        let s = self.sessions.get_mut(c).unwrap();
        if s.interval == 0 {
            self.end(c)
        } else {
            s.connected = false;
            s.end = if s.interval == u32::MAX {
                None
            } else {
                self.ends.insert((m + s.interval as u64, c.clone()));
                Some(m + s.interval as u64)
            }
        }
    }

    pub(crate) fn apply(&mut self, o: &Line, out: &mut Vec<Copy>) -> R<Outcome> {
        match &*o.word {
            "connect" => self.connect(o, out),
            "disconnect" => self.disconnect(o),
            "subscribe" => self.subscribe(o, out),
            "unsubscribe" => self.unsubscribe(o),
            "publish" => self.publish(o, out),
            "acl" => self.acl(o),
            "advance" => self.advance(o),
            "stat" => self.stat(o),
            _ => Err(Refused(3, 0)),
        }
    }

    fn connect(&mut self, o: &Line, out: &mut Vec<Copy>) -> R<Outcome> {
        only(o, &["client", "user", "clean", "session_expiry"])?;
        let (c, u, clean, iv) = (
            text(&o.client)?,
            o.user.as_deref(),
            o.clean.unwrap_or(true),
            num(o.session_expiry, 0, 4294967295)?.unwrap_or(0) as u32,
        );
        let c = self.client(c, false)?;
        if let Some(u) = u {
            if u.len() > 65535 || u.contains('\0') {
                return Err(Refused(6, 0));
            }
        }
        if self.sessions.get(&c).map_or(false, |s| s.connected) {
            self.leave(&c)
        }
        let user = u.map(String::from);
        let m = self.moment;
        match self.sessions.get_mut(&c) {
            Some(s) if !clean => {
                for (mut k, d) in s.waiting.drain(..) {
                    if let Some(d) = d {
                        if d <= m {
                            continue;
                        }
                        k.expiry = Some(d - m)
                    }
                    out.push(k)
                }
                s.user = user;
                s.interval = iv;
                s.connected = true;
                if let Some(e) = s.end.take() {
                    self.ends.remove(&(e, c));
                }
            }
            _ => {
                self.end(&c);
                self.sessions.insert(
                    c,
                    Session {
                        user,
                        interval: iv,
                        connected: true,
                        end: None,
                        waiting: VecDeque::new(),
                        filters: BTreeSet::new(),
                    },
                );
            }
        }
        Ok(Outcome::Reason(0))
    }

    fn disconnect(&mut self, o: &Line) -> R<Outcome> {
        only(o, &["client"])?;
        let c = self.client(text(&o.client)?, true)?;
        self.leave(&c);
        Ok(Outcome::Reason(0))
    }

    fn subscribe(&mut self, o: &Line, out: &mut Vec<Copy>) -> R<Outcome> {
        only(
            o,
            &["client", "filter", "qos", "no_local", "rap", "handling", "id"],
        )?;
        let (c, f) = (text(&o.client)?, text(&o.filter)?);
        let (qos, no_local, rap, h, id) = (
            num(o.qos, 0, 2)?.unwrap_or(0) as u8,
            o.no_local.unwrap_or(false),
            o.rap.unwrap_or(false),
            num(o.handling, 0, 2)?.unwrap_or(0),
            num(o.id, 1, 268435455)?.map(|x| x as u32),
        );
        let c = self.client(c, true)?;
        let (share, f) = parse_sub(f)?;
        if share.is_some() && no_local {
            return Err(Refused(10, 0));
        }
        let sub = Sub {
            qos,
            no_local,
            rap,
            id,
        };
        let slot = self.subs.entry(f);
        if slot.is_none() {
            *slot = Some(AtFilter {
                filter: Rc::from(f),
                direct: BTreeMap::new(),
                groups: BTreeMap::new(),
            })
        }
        let at = slot.as_mut().unwrap();
        let fr = at.filter.clone();
        let new = match share {
            None => at.direct.insert(c.clone(), sub).is_none(),
            Some(s) => at
                .groups
                .entry(s.to_string())
                .or_default()
                .insert(c.clone(), sub)
                .is_none(),
        };
        let s = self.sessions.get_mut(&c).unwrap();
        if new {
            self.count += 1;
            s.filters.insert((share.map(String::from), fr));
        }
        if share.is_none() && (h == 0 || (h == 1 && new)) {
            let mut found = vec![];
            self.retained.for_filter(Some(f), true, &mut found);
            let user = self.sessions[&c].user.as_deref();
            for r in found {
                if (no_local && r.publisher == c) || !allowed(&self.acl, &c, user, &r.topic, 1) {
                    continue;
                }
                out.push(Copy {
                    client: c.clone(),
                    topic: r.topic.clone(),
                    payload: r.payload.clone(),
                    qos: r.qos.min(qos),
                    retain: true,
                    expiry: r.deadline.map(|d| d - self.moment),
                    ids: id.into_iter().collect(),
                    group: None,
                });
            }
        }
        Ok(Outcome::Reason(qos))
    }

    fn unsubscribe(&mut self, o: &Line) -> R<Outcome> {
        only(o, &["client", "filter"])?;
        let (c, f) = (text(&o.client)?, text(&o.filter)?);
        let c = self.client(c, true)?;
        let (share, f) = parse_sub(f)?;
        let share = share.map(String::from);
        let key = (share.clone(), Rc::from(f));
        if !self.sessions.get_mut(&c).unwrap().filters.remove(&key) {
            return Ok(Outcome::Reason(17));
        }
        self.drop_sub(&c, &share, f);
        Ok(Outcome::Reason(0))
    }

    fn acl(&mut self, o: &Line) -> R<Outcome> {
        only(o, &["text"])?;
        self.acl = match o.text.as_deref() {
            None => None,
            Some(t) => Some(read_acl(t)?),
        };
        Ok(Outcome::Reason(0))
    }

    fn advance(&mut self, o: &Line) -> R<Outcome> {
        only(o, &["seconds"])?;
        let s = num(o.seconds, 0, u64::MAX)?.ok_or(Refused(4, 0))?;
        if self.moment.checked_add(s).map_or(true, |m| m > CLOCK_MAX) {
            return Err(Refused(13, 0));
        }
        self.moment += s;
        while let Some((d, t)) = self.by_deadline.first().cloned() {
            if d > self.moment {
                break;
            }
            self.by_deadline.remove(&(d, t.clone()));
            self.retained.take(&t);
            self.kept -= 1
        }
        let mut gone = vec![];
        for (e, c) in &self.ends {
            if *e > self.moment {
                break;
            }
            gone.push(c.clone());
        }
        for c in gone {
            self.end(&c)
        }
        Ok(Outcome::Reason(0))
    }

    fn stat(&mut self, o: &Line) -> R<Outcome> {
        only(o, &[])?;
        Ok(Outcome::Counts(
            self.subs.nodes() + self.retained.nodes(),
            self.kept,
            self.count,
        ))
    }
}
