//! Tables as owned bytes, together with the places they lay out.

use reference::library::Kind;
use reference::TableBytes;

/// How many bytes a head has, and where the number of empty shelves stands in it.
pub const HEAD_LENGTH: usize = 60;
pub const EMPTY_SHELVES: usize = 58;

/// How many bytes a search has, and how many of them are its template.
pub const SEARCH_LENGTH: usize = 41;
pub const TEMPLATE_LENGTH: usize = 32;

/// The highest generation.
pub const MOST_GENERATION: u8 = 8;

/// "a mask (bit g-1)"; none for what is no generation.
pub fn bit(generation: u8) -> u8 {
    match generation {
        1..=MOST_GENERATION => 1 << (generation - 1),
        _ => 0,
    }
}

/// An element's address and kind; its place in the table is its place in [`Scene::places`].
#[derive(Clone, Copy, Debug, PartialEq, Eq)]
pub struct Place {
    pub address: u16,
    pub kind: Kind,
}

/// Tables to call upon. The places are those of the tables before any clause was broken.
#[derive(Clone, Debug)]
pub struct Scene {
    pub tables: TableBytes,
    pub places: Vec<Place>,
}

impl Scene {
    /// The small library of document 01, with labels for three volumes, all of generation 1; the drive takes that, and there is no search.
    pub fn small_library() -> Scene {
        let ranges = [
            [0x00, 0x01, 0, 1],
            [0x10, 0x00, 0, 4],
            [0x00, 0x10, 0, 1],
            [0x01, 0x00, 0, 1],
        ];
        let place = |address: u16, kind: Kind| Place { address, kind };
        let mut places = vec![
            place(0x0001, Kind::Transport),
            place(0x0010, Kind::ImportExport),
            place(0x0100, Kind::Drive),
        ];
        places.extend((0x1000..=0x1003).map(|address| place(address, Kind::Storage)));
        let mut scene = Scene {
            tables: TableBytes::labelled(
                [&ranges.concat()[..], &[0; 44]].concat(),
                vec![0; 56],
                (0..108).collect(),
                vec![0x20; 36],
            ),
            places,
        };
        scene.tables.generations = vec![1; 3];
        scene.tables.masks = vec![bit(1)];
        scene.tables.search = vec![0; SEARCH_LENGTH];
        scene.set_volume(3, 1);
        scene.set_volume(5, 2);
        scene.show_empty_shelves(2);
        scene
    }

    /// The places whose kind and volume suit.
    pub fn places_where(&self, suits: impl Fn(Kind, u16) -> bool) -> Vec<usize> {
        (0..self.places.len())
            .filter(|&place| suits(self.places[place].kind, self.volume(place)))
            .collect()
    }

    pub fn is_element(&self, address: u32) -> bool {
        self.places
            .iter()
            .any(|place| u32::from(place.address) == address)
    }

    pub fn element(&mut self, place: usize) -> &mut [u8] {
        &mut self.tables.elements[8 * place..8 * place + 8]
    }

    /// 0 too where broken tables have no such element.
    pub fn volume(&self, place: usize) -> u16 {
        let elements = &self.tables.elements;
        match elements.get(8 * place..8 * place + 2) {
            Some(bytes) => u16::from_be_bytes([bytes[0], bytes[1]]),
            None => 0,
        }
    }

    /// The volume alone; [`Scene::recount`] puts the number of empty shelves right.
    pub fn set_volume(&mut self, place: usize, volume: u16) {
        self.element(place)[..2].copy_from_slice(&volume.to_be_bytes());
    }

    /// How many storage elements are empty; a broken table may have fewer elements than places.
    pub fn empty_shelves(&self) -> u16 {
        let records = self.tables.elements.chunks_exact(8);
        let empty = records.map(|record| record[..2] == [0, 0]);
        let shelves = self.places.iter().map(|place| place.kind == Kind::Storage);
        shelves
            .zip(empty)
            .filter(|&both| both == (true, true))
            .count() as u16
    }

    /// The number of empty shelves that the head shows.
    pub fn shown_empty_shelves(&self) -> u16 {
        let head = &self.tables.head;
        u16::from_be_bytes([head[EMPTY_SHELVES], head[EMPTY_SHELVES + 1]])
    }

    pub fn show_empty_shelves(&mut self, number: u16) {
        self.tables.head[EMPTY_SHELVES..].copy_from_slice(&number.to_be_bytes());
    }

    /// The head shows the number of shelves that are empty, if it has its length.
    pub fn recount(&mut self) {
        if self.tables.head.len() == HEAD_LENGTH {
            self.show_empty_shelves(self.empty_shelves());
        }
    }

    /// 0 for none.
    pub fn source(&self, place: usize) -> u16 {
        let elements = &self.tables.elements;
        u16::from_be_bytes([elements[8 * place + 2], elements[8 * place + 3]])
    }

    pub fn set_source(&mut self, place: usize, source: u16) {
        self.element(place)[2..4].copy_from_slice(&source.to_be_bytes());
    }

    pub fn hold(&mut self, place: usize, host: u8, id: u8) {
        self.element(place)[4..6].copy_from_slice(&[host, id]);
    }

    pub fn set_mark(&mut self, place: usize, mark: u8) {
        self.element(place)[6] = mark;
    }

    pub fn hold_unit(&mut self, host: u8) {
        self.tables.head[16] = host;
    }

    /// 0 too where a broken head is too short to say.
    pub fn unit_holder(&self) -> u8 {
        self.tables.head.get(16).copied().unwrap_or(0)
    }

    pub fn set_prevent_mask(&mut self, mask: u8) {
        self.tables.head[17] = mask;
    }

    /// Key, ASC, ASCQ, attention ASC, attention ASCQ of host 1 to 8.
    pub fn host_record(&mut self, host: u8) -> &mut [u8] {
        let at = 18 + 5 * (usize::from(host) - 1);
        &mut self.tables.head[at..at + 5]
    }

    /// The generation of a volume; 0 where broken tables tell none.
    pub fn generation(&self, volume: u16) -> u8 {
        let at = usize::from(volume).checked_sub(1);
        let found = at.and_then(|at| self.tables.generations.get(at));
        found.copied().unwrap_or(0)
    }

    pub fn set_generation(&mut self, volume: u16, generation: u8) {
        self.tables.generations[usize::from(volume) - 1] = generation;
    }

    /// The drives' places in the element table, in the order of the masks.
    pub fn drives(&self) -> Vec<usize> {
        self.places_where(|kind, _| kind == Kind::Drive)
    }

    /// The mask of the drive at this place of the element table.
    pub fn mask(&mut self, place: usize) -> &mut u8 {
        let before = self.places[..place].iter();
        let drive = before.filter(|place| place.kind == Kind::Drive).count();
        &mut self.tables.masks[drive]
    }

    /// As many labels as this; generations as many, those that come new are 1.
    pub fn relabel(&mut self, tags: Vec<u8>) {
        self.tables.tags = tags;
        self.tables.generations.resize(self.volumes(), 1);
    }

    /// Every drive takes every generation.
    pub fn take_all(&mut self) {
        self.tables.masks.fill(0xFF);
    }

    /// Each full drive takes what stands in it, as far as the tables have a generation and a mask for that.
    pub fn admit(&mut self) {
        for (drive, place) in self.drives().into_iter().enumerate() {
            let taken = bit(self.generation(self.volume(place)));
            if let Some(mask) = self.tables.masks.get_mut(drive) {
                *mask |= taken;
            }
        }
    }

    /// V.
    pub fn volumes(&self) -> usize {
        self.tables.tags.len() / 36
    }

    /// A volume number up to V that stands nowhere, if there is one.
    pub fn absent_volume(&self) -> Option<u16> {
        let mut present = vec![false; self.volumes() + 1];
        for place in 0..self.places.len() {
            if let Some(seen) = present.get_mut(usize::from(self.volume(place))) {
                *seen = true;
            }
        }
        (1..present.len())
            .find(|&volume| !present[volume])
            .map(|volume| volume as u16)
    }
}
